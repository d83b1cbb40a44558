#!/usr/bin/env python3
"""Writes docs/proved.md from the doc comments and the clauses in crates/*/src; with --check it compares alone."""
import re
import sys
from pathlib import Path

TOP = Path(__file__).resolve().parent.parent
PAGE = TOP / "docs" / "proved.md"

HEAD = """# What is proved, call by call

This page is made by `docs/proved.py` from the doc comments and the contracts in crates/*/src. The gate compares it (`docs/proved.py --check`), so each sentence stands in one place, beside the code that it is of. README.md has the summary, docs/laws.md what a run, a history and a law are.

How to read it:

- A crate stands in the layer above the highest crate that it uses. Its first lines are those of its root file.
- A row is a public call, with the sentences of its doc comment and its clauses: what the prover showed of each call of it that keeps its conditions (`requires`, in the source). A clause is given by its name; one without a name by its words, or by the definitions that it cites where it is long. In brackets behind a name stand the definitions of specs/ that the clause cites.
- The clause is what is proved, and the sentence says it in words. Where they differ, the clause holds, and the sentence is a mistake.
- A **law** is a function without a parameter or a result, whose clause is a statement over definitions.
- A row without a clause says no more than every row does: the call returns, with no index out of range, no sum that wraps and no cast that loses bits.
- `Type::call` is a method. The methods of a trait have their clauses in the trait's rows, and each type that has the trait is proved to keep them; a row `<Type as Trait>::call` has the clauses of that type, where it has more than the trait.
- A crate whose name ends in `_runs` has tests and no public call.
"""

USE = re.compile(r"ghost use Rattle\.([a-z_0-9]+)\.([\w.]+)\.\{([^}]*)\}")
FN = re.compile(r"^(\s*)(pub(?:\([a-z]+\))? )?(?:const )?fn (\w+)")
CLAUSE = re.compile(r"^\s*ensures(?:\* | )?\s*(\w+)?\s*\{(.*)\};?\s*$")
IMPL = re.compile(r"^impl(?:<.*?>)? (?:(.+?) for )?(.+?)(?: where .*)? \{")
OPENS = re.compile(r"^(pub )?(?:trait|struct|enum) (\w+)")


def crates():
    """The names of crates.txt with those of the repository that each uses."""
    uses = {}
    for line in (TOP / "crates.txt").read_text().splitlines():
        name, _, below = line.split("#")[0].partition(":")
        if name.strip():
            uses[name.split()[0]] = below.split()
    return {name: [low for low in below if low in uses] for name, below in uses.items()}


def layers(uses):
    """The layer of each crate: one above the highest that it uses."""
    found = {}
    while len(found) < len(uses):
        for name, below in uses.items():
            if name not in found and all(low in found for low in below):
                found[name] = 1 + max((found[low] for low in below), default=0)
    return found


def bare(kind):
    """A type's name without its parameters and its path."""
    return re.sub(r"<.*", "", kind.replace("&mut ", "").lstrip("&")).split("::")[-1].strip()


def exports(root):
    """The names that the root file gives to other crates, and its public modules."""
    text = root.read_text()
    names = set()
    for path, group in re.findall(r"^pub use ([\w:]+?)(?:::\{([^}]*)\})?;", text, re.M):
        for name in (group or path.split("::")[-1]).split(","):
            names.add(re.sub(r".* as ", "", name.strip()))
    return names, set(re.findall(r"^pub mod (\w+);", text, re.M))


def definitions(lines, ours):
    """The names of the repository's definitions that a file imports."""
    names = set()
    for crate, _, group in USE.findall("\n".join(lines)):
        if crate in ours:
            for name in group.split(","):
                names.add(name.strip().split(" as ")[-1])
    return names


def sentences(comment):
    """The sentences of a doc comment in one line, without its links."""
    return re.sub(r"\[(`[^`]*`)\]", r"\1", " ".join(line.strip() for line in comment if line.strip()))


def in_code(text):
    return "`" + text.replace("|", "\\|") + "`"


def clause(name, text, known):
    """A clause as the page tells it."""
    text = text.strip()
    cited = [word for word in dict.fromkeys(re.findall(r"[A-Za-z_]\w*", text)) if word in known]
    if name:
        relations = [word for word in cited if word[0].isupper()]
        return in_code(name) + (" (" + ", ".join(map(in_code, relations)) + ")" if relations else "")
    if len(text) <= 60 or not cited:
        return in_code(text if len(text) <= 120 else text[:117] + "...")
    relations = [word for word in cited if word[0].isupper()] or cited
    return ", ".join(map(in_code, relations))


class Call:
    """A function of a file: its owner, its doc comment and its clauses."""

    def __init__(self, owner, public, name, doc):
        self.owner, self.public, self.name, self.doc = owner, public, name, doc
        self.module, self.clauses = "", []

    def title(self):
        return "::".join(part for part in (self.module, self.owner, self.name) if part)


def calls(path, ours):
    """The functions of a file in their order, each with what it belongs to: ('', None), a type, a trait or an impl of one."""
    lines = path.read_text().splitlines()
    known = definitions(lines, ours)
    owner, trait, doc, open_call, tested = "", None, [], None, False
    for line in lines:
        if line.startswith("}"):
            owner, trait = "", None
        comment = re.match(r"^\s*/// ?(.*)", line)
        if comment:
            doc.append(comment.group(1))
            continue
        if line.strip().startswith("#["):
            tested = tested or "test" in line
            continue
        opened, made = OPENS.match(line), IMPL.match(line)
        if opened and line.startswith(("pub trait", "trait")):
            owner, trait = opened.group(2), "its own"
        elif made:
            trait, owner = made.group(1), bare(made.group(2))
        found = FN.match(line)
        if found:
            open_call = None
            if not tested:
                public = found.group(2) == "pub " or trait is not None
                of = f"<{owner} as {bare(trait)}>" if trait not in (None, "its own") else owner
                open_call = Call(of, public, found.group(3), sentences(doc))
                open_call.kind, open_call.adds = owner, trait not in (None, "its own")
                open_call.instead = f"As `{bare(trait)}::{open_call.name}`." if open_call.adds else ""
                open_call.is_law = line.rstrip().endswith("()")
                yield open_call
        said = CLAUSE.match(line)
        if not said and line.strip().startswith("ensures"):
            sys.exit(f"{path}: docs/proved.py reads clauses that stand in one line alone: {line.strip()}")
        if said and open_call:
            open_call.clauses.append(clause(said.group(1), said.group(2), known))
        if line.strip():
            doc, tested = [], False


def is_told(call, path, names, modules, is_program):
    """Whether the page has a row for the call."""
    if is_program:
        return bool(call.clauses)
    if call.is_law and call.clauses:
        return True
    if call.adds and not call.clauses:
        return False
    return call.public and ((call.kind or call.name) in names or path.stem in modules)


def rows(name, ours):
    """The rows of a crate, and what its root file says."""
    src = TOP / "crates" / name / "src"
    root = src / "lib.rt"
    is_program = not root.exists()
    if is_program:
        root = src / "main.rt"
    about = sentences([line[3:] for line in root.read_text().splitlines() if line.startswith("//!")])
    names, modules = exports(root)
    found = []
    for path in sorted(src.rglob("*.rt"), key=lambda path: str(path.relative_to(src))):
        written = list(calls(path, ours))
        for call in written:
            call.module = path.stem if path.stem in modules else ""
        found += [call for call in written if is_told(call, path, names, modules, is_program)]
    return about, found


def page():
    uses = crates()
    layer = layers(uses)
    out = [HEAD, "\n" + ", ".join(f"[{name}](#{name})" for name in sorted(uses)) + "\n"]
    for level in range(1, max(layer.values()) + 1):
        out.append(f"\n## Layer {level}\n")
        for name in sorted(crate for crate in uses if layer[crate] == level):
            about, found = rows(name, uses)
            out.append(f"\n### {name}\n\n{about}\n")
            if not found:
                continue
            out.append("\n| Call | What it does | Clauses |\n|---|---|---|\n")
            for call in found:
                title = f"**law** `{call.title()}`" if call.is_law and call.clauses else f"`{call.title()}`"
                text = (call.doc or call.instead).replace("|", "\\|")
                out.append(f"| {title} | {text} | {', '.join(call.clauses)} |\n")
    return "".join(out)


def missing():
    """The calls that have no doc comment, or one of fewer than three words."""
    uses = crates()
    for name in uses:
        for call in rows(name, uses)[1]:
            if len(call.doc.split()) < 3:
                print(f"{name}: {call.title()}: {call.doc}")


def main():
    if "--missing" in sys.argv:
        missing()
    elif "--check" not in sys.argv:
        PAGE.write_text(page(), encoding="utf-8")
    elif not PAGE.exists() or PAGE.read_text(encoding="utf-8") != page():
        sys.exit("docs/proved.md is not what the sources say: run docs/proved.py and commit the page")


main()
