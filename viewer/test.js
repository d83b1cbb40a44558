'use strict';

// The viewer's test: opens journal.html in a headless Chromium and asks the page what it shows.
// Its argument is the browser's command; with the word `picture` behind it docs/journal.svg is written anew.
// It speaks the DevTools protocol over two pipes, without a library.

const { spawn } = require('child_process');
const { existsSync, mkdtempSync, readFileSync, readdirSync, rmSync, writeFileSync } = require('fs');
const { tmpdir } = require('os');
const { join } = require('path');
const { pathToFileURL } = require('url');

const EXAMPLES = join(__dirname, '..', 'examples');
const JOURNALS = join(__dirname, 'journals');
const PAGE = pathToFileURL(join(__dirname, 'journal.html')).href;
const PICTURE = join(__dirname, '..', 'docs', 'journal.svg');
const read = (...path) => readFileSync(join(__dirname, '..', ...path), 'utf8');

// The sizes of the window, in pixels of the page and how many of the screen one of them takes: the second is the first at 200 %.
const SIZES = [{ name: '1400x900', width: 1400, height: 900, scale: 1 }, { name: '200 %', width: 700, height: 450, scale: 2 }];

// The browser.

const WORDS = [
  '--headless=new', '--no-sandbox', '--disable-gpu', '--disable-dev-shm-usage', '--no-first-run', '--remote-debugging-pipe',
];

// What the browser's console shows: the page's words, its exceptions, and the browser's own.
const CONSOLE = ['Runtime.consoleAPICalled', 'Runtime.exceptionThrown', 'Log.entryAdded'];

// A browser that doesn't answer in that time fails the test.
const MOST_SECONDS = 120;

class Browser {
  constructor(command) {
    this.profile = mkdtempSync(join(tmpdir(), 'viewer-'));
    const words = [...WORDS, `--user-data-dir=${this.profile}`, 'about:blank'];
    this.process = spawn(command, words, { stdio: ['ignore', 'ignore', 'ignore', 'pipe', 'pipe'] });
    this.waiting = new Map();
    this.console = [];
    this.text = '';
    this.last = 0;
    this.process.stdio[4].on('data', bytes => this.take(bytes));
    this.process.on('exit', () => { for (const wait of this.waiting.values()) wait.fail(new Error('the browser ended')); });
  }

  take(bytes) {
    const messages = (this.text + bytes).split('\0');
    this.text = messages.pop();
    for (const message of messages.map(JSON.parse)) this.answer(message);
  }

  answer(message) {
    if (CONSOLE.includes(message.method)) this.console.push(JSON.stringify(message.params).slice(0, 500));
    if (message.method === 'Page.loadEventFired' && this.onLoad) this.onLoad();
    const wait = this.waiting.get(message.id);
    if (!wait) return;
    this.waiting.delete(message.id);
    if (message.error) wait.fail(new Error(message.error.message));
    else wait.done(message.result);
  }

  send(method, params = {}) {
    this.last += 1;
    const message = { id: this.last, method, params, sessionId: this.session };
    this.process.stdio[3].write(`${JSON.stringify(message)}\0`);
    return new Promise((done, fail) => {
      const timer = setTimeout(() => fail(new Error(`the browser does not answer ${method}`)), 1000 * MOST_SECONDS);
      const ended = act => value => { clearTimeout(timer); act(value); };
      this.waiting.set(message.id, { done: ended(done), fail: ended(fail) });
    });
  }

  async open(url) {
    const { targetId } = await this.send('Target.createTarget', { url: 'about:blank' });
    this.session = (await this.send('Target.attachToTarget', { targetId, flatten: true })).sessionId;
    for (const part of ['Runtime', 'Log', 'Page', 'Accessibility']) await this.send(`${part}.enable`);
    await this.load(url, SIZES[0]);
  }

  // Opens the page in a window of that size.
  async load(url, { width, height, scale }) {
    await this.send('Emulation.setDeviceMetricsOverride', { width, height, deviceScaleFactor: scale, mobile: false });
    const loaded = new Promise(done => { this.onLoad = done; });
    await this.send('Page.navigate', { url });
    await loaded;
  }

  async ask(expression) {
    const { result, exceptionDetails } = await this.send('Runtime.evaluate', { expression, returnByValue: true, awaitPromise: true });
    if (exceptionDetails) throw new Error(`${exceptionDetails.exception.description}\nin ${expression.slice(0, 200)}`);
    return result.value;
  }

  // A key as a hand presses it.
  async press(key) {
    const text = { Enter: '\r' }[key] || (key.length === 1 ? key : undefined);
    const code = { Enter: 13, Escape: 27, ArrowDown: 40, ArrowUp: 38, End: 35, Home: 36 }[key] || key.toUpperCase().charCodeAt(0);
    await this.send('Input.dispatchKeyEvent', { type: 'keyDown', key, text, windowsVirtualKeyCode: code });
    await this.send('Input.dispatchKeyEvent', { type: 'keyUp', key, windowsVirtualKeyCode: code });
  }

  // A click on an element, or at a part of its width and height.
  async click(element, across = 0.5, down = 0.5) {
    await this.ask(`${element}.scrollIntoView({ block: 'nearest', inline: 'nearest' })`);
    const box = await this.ask(`(({ left, top, width, height }) => ({ left, top, width, height }))(${element}.getBoundingClientRect())`);
    const at = { x: box.left + across * box.width, y: box.top + down * box.height, button: 'left', clickCount: 1 };
    await this.send('Input.dispatchMouseEvent', { type: 'mousePressed', buttons: 1, ...at });
    await this.send('Input.dispatchMouseEvent', { type: 'mouseReleased', ...at });
  }

  close() {
    const ended = new Promise(done => this.process.on('exit', done));
    this.process.kill();
    return ended.then(() => rmSync(this.profile, { recursive: true, force: true }));
  }
}

// What is tried.

let failures = 0;
let where = '';

function check(name, found, wanted) {
  if (JSON.stringify(found) === JSON.stringify(wanted)) return;
  failures += 1;
  console.log(`viewer/test: ${where}${name}: found ${JSON.stringify(found)}, wanted ${JSON.stringify(wanted)}`);
}

const show = (browser, ...texts) => browser.ask(`openTexts(${JSON.stringify(texts)}); byId('message').textContent`);
const example = name => ({ name, text: readFileSync(join(existsSync(join(EXAMPLES, name)) ? EXAMPLES : JOURNALS, name), 'utf8') });
const script = name => example(name.replace('.journal', '.sbp2'));

// Asks the page for the whole picture, and counts the arrows and rows in it.
const COUNTS = `(() => {
  const whole = wholeSvg(page.view, 1280, 0, page.view.rows.length);
  const picture = new DOMParser().parseFromString(whole, 'image/svg+xml');
  const count = pick => picture.querySelectorAll(pick).length;
  const arrows = count('g.packet[data-serial]:not(.repeat):not(.far)');
  return { errors: count('parsererror'), arrows, rows: count('g.row[data-note]'), unknown: page.view.story.unknown };
})()`;

async function tryExamples(browser) {
  for (const name of [EXAMPLES, JOURNALS].flatMap(folder => readdirSync(folder)).filter(file => file.endsWith('.journal'))) {
    const journal = example(name);
    check(`${name}: message`, await show(browser, journal, script(name)), '');
    const lines = journal.text.trim().split('\n');
    const arrows = lines.filter(line => line.startsWith('sent ')).length;
    check(name, await browser.ask(COUNTS), { errors: 0, arrows, rows: lines.length, unknown: 0 });
    check(`${name}: rows that scrolling shows`, await browser.ask(SCROLL), lines.length);
  }
}

// Scrolls from the first row to the last and counts the notes that were seen.
const SCROLL = `(() => {
  const seen = new Set();
  for (let top = 0; top <= page.view.rows.length * ROW; top += byId('chart').clientHeight / 2) {
    byId('chart').scrollTop = top;
    drawSeen(false);
    for (const row of byId('picture').querySelectorAll('g.row[data-note]')) seen.add(row.dataset.note);
  }
  return seen.size;
})()`;

// The sentence of each ORB and submission, as viewer/sentences.txt has it: a journal's name, and below it its sentences.
const TOLD = `[...page.view.story.orbs.values(), ...page.view.story.submissions].map(subject => SENTENCES[subject.type](page.view.story, subject))`;

async function trySentences(browser) {
  for (const part of read('viewer', 'sentences.txt').trim().split('\n\n')) {
    const [name, ...sentences] = part.split('\n');
    await show(browser, example(name));
    check(`${name}: sentences`, await browser.ask(TOLD), sentences);
  }
}

// Every note that docs/formats.md lists has a row in the page.
async function tryTable(browser) {
  const journal = read('docs', 'formats.md').split('\n## ').find(part => part.startsWith('The journal'));
  const texts = journal.split('\n').filter(line => line.startsWith('| `')).map(line => line.split(' | ')[0]);
  const words = texts.flatMap(text => text.match(/`[a-z]+/g)).map(word => word.slice(1));
  check('notes of docs/formats.md', words.length > 35, true);
  check('notes without a row', await browser.ask(`${JSON.stringify(words)}.filter(word => !Object.hasOwn(NOTES, word))`), []);
}

// Files that are no journal get one line; a note without a row is shown and counted.
async function tryFaults(browser) {
  const cases = [
    ['', 'Line 1: the file is empty'],
    ['# Notes\n', 'Line 1: a journal begins with `begin N ready` or `begin N cold`'],
    ['begin 1 ready\nappend 0 tur\nsettle\nsettled\n', 'Line 2: `append` needs the number of a list where “tur” stands.'],
    ['begin 1 ready\ngot\n', 'Line 2: `got` needs the serial of a packet where it ends.'],
    ['begin 1 ready\nsettled now\n', 'Line 2: `settled` ends before “now”.'],
    ['begin 1 ready\nseen 1 0\n', 'Line 2: initiator 1 is named, and the run has 1 initiator.'],
    ['begin 1 ready\nsettled\n\n', 'Line 3: a journal has no empty line.'],
    ['begin 1 ready\nHello\n', 'Line 2: “Hello” begins with no note.'],
    ['begin 1 ready\nsettled\nbegin 1 ready\n', 'Line 3: a second `begin` stands here'],
  ];
  for (const [text, wanted] of cases) await checkMessage(browser, JSON.stringify(text), [{ name: 'x', text }], `“x” is no journal. ${wanted}`);
  await checkMessage(browser, 'an unknown note', [{ name: 'x', text: 'begin 1 ready\nstrange 1 2\nsettled\n' }], '1 note of this journal is not known to this page');
  check('an unknown note in the picture', await browser.ask(COUNTS), { errors: 0, arrows: 0, rows: 3, unknown: 1 });
  await checkMessage(browser, 'a faulty script', [{ name: 'x', text: 'script 1 3\n' }], '');
  const others = [example('late-status.journal'), example('read-ahead.sbp2')];
  await checkMessage(browser, 'another script', others, '“read-ahead.sbp2” is not the script of this journal: its line 4 brings `append`');
  await browser.ask('page.journal = null');
  await checkMessage(browser, 'a script alone', [example('read-ahead.sbp2')], '“read-ahead.sbp2” is a script: give its journal too.');
}

async function checkMessage(browser, name, texts, wanted) {
  const message = await show(browser, ...texts);
  check(name, message.slice(0, wanted.length), wanted);
}

// A packet of each fate: got and repeated, ignored, lost, timed out, withdrawn, in flight.
const FATES = `begin 1 ready
sent 1 0 0 t FFC00140FFC1FFFFF0040000
got 1
sent 2 0 t 0 FFC10160FFC000000000000000000000
got 1
sent 3 0 t 0 FFC10160FFC000000000000000000000
ignored 3 label
sent 4 0 0 t FFC00540FFC1FFFFF0040000
lost 4
sent 5 0 0 t FFC00940FFC1FFFFF0040000
timedout 5
op 0 state error
got 2
op 0 state 0
sent 6 0 0 t FFC00D40FFC1FFFFF0040000
sent 7 0 0 t FFC00D40FFC1FFFFF0040000
`;

async function tryFates(browser) {
  await show(browser, { name: 'fates', text: FATES });
  const fates = await browser.ask('[...page.view.story.packets.values()].map(fateOf)');
  check('fates', fates, ['got', 'got', 'ignored', 'lost', 'timedout', 'withdrawn', 'flight']);
  check('a look for each', await browser.ask("new Set(Object.keys(FATES).map(fate => drawFate(fate, 70, 9, 1))).size"), 6);
  check('repeats', await browser.ask("byId('picture').querySelectorAll('g.packet.repeat').length"), 1);
}

const CHOSEN = "[byId('title').textContent, page.view.rows[page.view.cursor].note.text]";

// Choosing, keys, finding, filters.
async function tryHands(browser) {
  await show(browser, example('late-status.journal'), example('late-status.sbp2'));
  const press = key => browser.ask(`document.body.dispatchEvent(new KeyboardEvent('keydown', { key: '${key}', bubbles: true })); ${CHOSEN}`);
  const find = query => browser.ask(`setQuery('${query}'); page.view.found.map(row => page.view.rows[row].note.index + 1)`);
  await browser.ask('goToNote(15)');
  check('the event before', await press('p'), ['ORB 0:0/0', 'ended 0 0 0 good']);
  check('the event after', await press('n'), ['List 0:0', 'dead 0 0 timeout']);
  check('find serial 5', await find('5'), [14, 15, 24]);
  check('find serial 5 as written', await find('#5'), [14, 15, 24]);
  check('find a name', await find('@agent0.reset'), [17, 20]);
  check('find a text', await find('timeout'), [16]);
  await browser.ask("setQuery(''); page.view.hidden.kinds.add('got'); page.view.hidden.kinds.add('sent'); refilter()");
  check('filter by kind', await browser.ask('page.view.rows.filter(row => row.note).length'), 14);
  await browser.ask("unfilter(); page.view.hidden.nodes.add('0'); refilter()");
  check('filter by node', await browser.ask("page.view.rows.every(({ note }) => note.node !== '0' || note.fields.to === 't')"), true);
  await browser.ask("unfilter(); page.view.list = '0:1'; refilter()");
  check('filter by list', await browser.ask('page.view.rows.map(row => row.note.text.slice(0, 8))'), ['append 0', 'rung 0 1', 'sent 9 0']);
  await browser.ask('unfilter()');
}

// The example in the page is that of examples/, and the page asks for nothing else.
async function tryPage(browser) {
  check('embedded journal', await browser.ask("embedded('example-journal')"), read('examples', 'late-status.journal'));
  check('embedded script', await browser.ask("embedded('example-script')"), read('examples', 'late-status.sbp2'));
  check('requests', await browser.ask("performance.getEntriesByType('resource').length"), 0);
}

// docs/journal.svg is the picture that the page saves of its example, with the ORB chosen whose status was never taken.
async function tryPicture(browser) {
  await show(browser, example('late-status.journal'), script('late-status.journal'));
  await browser.click("[...byId('wrongs').children].find(({ textContent }) => textContent.includes('never taken'))");
  const picture = await browser.ask('wholeSvg(page.view, 1000, 0, page.view.rows.length)');
  if (process.argv[3] === 'picture') writeFileSync(PICTURE, picture);
  check('docs/journal.svg is the picture of the example (viewer/test picture writes it)', readFileSync(PICTURE, 'utf8') === picture, true);
  check('rows and arrows of the picture', [picture.split('data-note=').length - 1, picture.split('data-serial=').length - 1], [29, 9]);
  check('what the picture tells', ['1 agent died', '2 ORBs never taken', 'was never taken, since packet 5'].filter(text => !picture.includes(text)), []);
}

// Each of the following is tried at each size.

// A journal with one of each that goes wrong; no run wrote it.
const TROUBLE = `begin 2 ready
append 0 0 0 000000000000000000000000 none
rung 0 0 0
sent 1 0 0 t FFC00110FFC1FFFFF0040008000800000000000010000000
lost 1
sent 2 0 0 t FFC00540FFC1FFFFF0040000
timedout 2
stuck 0
refused 4 1
append 1 0 0 000000000000000000000000 none
rung 1 0 0
ended 1 0 0 check 2/3A/00
taken 1 0 0 check 2/3A/00
dead 1 0 timeout
sent 3 0 1 t FFC00540FFC2FFFFF0040020
ignored 3 label
op 1 login refused 08
mgmtfail 1 timeout
unsent 1
op 1 state 0
op 1 rom done
settled
`;
const WRONG = {
  '1 agent died': 14, '1 session stuck': 8, '1 ORB ended other than good': 12, '1 ORB never taken': 2, '1 packet lost': 5, '1 packet timed out': 7,
  '1 packet ignored': 16, '1 action refused': 9, '1 operation failed': 17, '1 management failure': 18, '1 unsolicited status not sent': 19,
};
const LINE = 'page.view.rows[page.view.cursor].note.index + 1';
const CHART = "byId('chart')";

// What went wrong stands in the head, each kind a link to its first note; e and E go along all of it, and the strip shows where.
async function tryWrongs(browser) {
  await show(browser, { name: 'trouble', text: TROUBLE });
  check('what went wrong', await browser.ask("[...byId('wrongs').children].map(link => link.textContent)"), Object.keys(WRONG));
  for (const [index, [words, line]] of Object.entries(WRONG).entries()) {
    await browser.click(`byId('wrongs').children[${index}]`);
    check(`the link of ${words}`, await browser.ask(LINE), line);
  }
  check('strip', await browser.ask("[...byId('strip-marks').children].length"), Object.keys(WRONG).length);
  check('marks at the rows', await browser.ask("page.view.rows.filter(({ note }) => note.wrong).length"), Object.keys(WRONG).length);
  const lines = Object.values(WRONG).sort((a, b) => a - b);
  await browser.press('Escape');
  const went = [];
  for (let step = 0; step <= lines.length; step += 1) { await browser.press('e'); went.push(await browser.ask(LINE)); }
  check('e goes on', went, [...lines, lines[0]]);
  await browser.press('Escape');
  await browser.press('E');
  check('E goes to the last', await browser.ask(LINE), lines[lines.length - 1]);
  await browser.press('E');
  check('E goes back', await browser.ask(LINE), lines[lines.length - 2]);
  await show(browser, { name: 'good', text: 'begin 1 ready\nsettled\n' });
  check('nothing wrong', await browser.ask("byId('wrongs').textContent"), 'No note tells of anything wrong.');
}

// The strip moves the chart: to its end, and to a note in its middle.
async function tryStrip(browser) {
  const lines = Array.from({ length: 2000 }, (none, index) => (index === 1000 ? 'stuck 0' : 'tick'));
  await show(browser, { name: 'strip', text: `begin 1 ready\n${lines.join('\n')}\n` });
  await browser.click("byId('strip')", 0.5, 0.99);
  check('the strip moves the chart', await browser.ask(`${CHART}.scrollTop + ${CHART}.clientHeight >= ${CHART}.scrollHeight - 40 * ROW`), true);
  const place = await browser.ask("(mark => mark.getBBox().y / byId('strip').clientHeight)(byId('strip-marks').children[0])");
  check('the place in the strip', Math.abs(place - 0.5) < 0.01, true);
  await browser.click("byId('strip')", 0.5, place);
  check('the row in sight', await browser.ask(`(row => { const top = row * ROW - ${CHART}.scrollTop; return top > 0 && top < ${CHART}.clientHeight - HEAD; })(page.view.place[1001])`), true);
}

// Typing the name of an ORB, as the picture writes it, goes to its first row, and Enter goes on.
async function tryNames(browser) {
  const orbs = Array.from({ length: 120 }, (none, orb) => `append 0 0 ${orb} 000000000000000000000000 none\nrung 0 0 ${orb}\n`);
  await show(browser, { name: 'names', text: `begin 1 ready\n${orbs.join('')}` });
  await browser.press('/');
  await browser.send('Input.insertText', { text: '0:0/97' });
  check('typing finds the rows of an ORB', await browser.ask('page.view.found.map(row => page.view.rows[row].note.text.slice(0, 13))'), ['append 0 0 97', 'rung 0 0 97']);
  check('typing goes to the first', await browser.ask(CHOSEN), ['ORB 0:0/97', 'append 0 0 97 000000000000000000000000 none']);
  check('typing goes on', await browser.ask("document.activeElement.id + ' ' + byId('count').textContent"), 'find 1 of 2');
  check('the row is in sight', await browser.ask("Boolean(byId('picture').querySelector('g.row.cursor'))"), true);
  await browser.press('Enter');
  check('Enter goes on', await browser.ask(`${LINE} - 2`), 2 * 97 + 1);
  await show(browser, example('late-status.journal'), script('late-status.journal'));
  const find = query => browser.ask(`setQuery('${query}'); page.view.found.map(row => page.view.rows[row].note.index + 1)`);
  check('all rows of an ORB', await find('0:0/0'), [2, 3, 4, 5, 6, 7, 8, 9, 10, 11, 12, 13, 14, 15, 16, 19, 22, 24, 25, 26]);
  check('the same', await find('ORB 0:0/0'), await find('0:0/0'));
  check('a list', await find('0:1'), [27, 28, 29]);
  check('what the picture writes', await find('list 0:0: agentreset'), [19]);
}

const ROWS = 'page.view.rows.map(({ note }) => (note ? note.index + 1 : 0))';
const ALONE = name => `[...byId('alone').children].find(({ textContent }) => textContent === '${name}')`;

// One click from a chosen row shows only what belongs to its packet, ORB, list or login, and one more shows all.
async function tryAlone(browser) {
  await show(browser, example('late-status.journal'), script('late-status.journal'));
  const all = await browser.ask(ROWS);
  const cases = {
    'Packet 5': [14, 15, 24, 25, 26], 'ORB 0:0/0': [2, 3, 4, 5, 6, 7, 8, 9, 10, 11, 12, 13, 14, 15, 16, 19, 22, 24, 25, 26],
    'Login 1': [1, 2, 3, 4, 5, 6, 7, 8, 9, 10, 11, 12, 13, 14, 15, 16, 19, 22, 24, 25, 26, 27, 28, 29],
  };
  for (const [name, lines] of Object.entries(cases)) {
    await browser.ask('goToNote(13)');
    await browser.click(ALONE(name));
    check(`only ${name}`, await browser.ask(ROWS), lines);
    check(`${name} is told`, await browser.ask("byId('shown').textContent"), `${name} only: ${lines.length} of 29`);
    check('the row stays chosen', await browser.ask(LINE), 14);
    await browser.click("byId('unfilter')");
    check('all again', await browser.ask(ROWS), all);
  }
  await browser.ask('goToNote(13)');
  await browser.press('o');
  check('o shows what is chosen', await browser.ask(ROWS), cases['Packet 5']);
  await browser.press('o');
  check('o shows all', await browser.ask(ROWS), all);
}

// A print has every row once, in pages, and no buttons.
async function tryPrint(browser) {
  await show(browser, example('read-ahead.journal'), script('read-ahead.journal'));
  await browser.ask('window.printed = null; window.addEventListener("beforeprint", () => { window.printed = [...byId("pages").children].map(({ dataset }) => [dataset.from, dataset.to].map(Number)); }, { once: true })');
  const { data } = await browser.send('Page.printToPDF', { preferCSSPageSize: true, printBackground: true });
  const pages = await browser.ask('window.printed');
  const rows = await browser.ask('page.view.rows.length');
  check('pages in order', [pages[0][0], pages.every(([from], index) => index === 0 || from === pages[index - 1][1]), pages[pages.length - 1][1]], [0, true, rows]);
  check('more pages than one', pages.length > 1, true);
  check('pages of the print', Buffer.from(data, 'base64').toString('latin1').match(/\/Type \/Page\b/g).length, pages.length);
  await browser.send('Emulation.setEmulatedMedia', { media: 'print' });
  const seen = "[...document.body.querySelectorAll('button, input, select, aside, #chart, #strip')].filter(part => part.getClientRects().length).length";
  check('buttons in print', await browser.ask(`fillPages(); ${seen}`), 0);
  check('rows in print', await browser.ask("[...new Set([...byId('pages').querySelectorAll('g.row')].map(row => row.dataset.row))].length"), rows);
  await browser.send('Emulation.setEmulatedMedia', { media: '' });
  await browser.ask("byId('pages').replaceChildren()");
}

// Two initiators and a script, with long words at the lanes and remarks.
const LONG_WORDS = `begin 2 ready
append 0 10000000 0 280000000000000001000000 in 512
append 1 10000000 0 280000000000000001000000 in 512
taken 1 10000000 0 check 2/3A/00
dead 1 10000000 timeout
ended 1 10000000 0 check 2/3A/00
taken 0 10000000 0 check 2/3A/00
`;

// No word at a lane runs into the script's column or the journal's, and no lane goes through a remark.
const OVER = `[...byId('picture').querySelectorAll('g.row .label')].filter(label => {
  const { x, width } = label.getBBox();
  return x < page.columns.number + page.columns.script || x + width > page.columns.text;
}).map(label => label.textContent)`;
const STRUCK = `[...byId('picture').querySelectorAll('g.row.silent')].filter(row => {
  const [back, text] = [row.querySelector('.paper').getBBox(), row.querySelector('.script').getBBox()];
  const lanes = [...byId('picture').querySelectorAll('path.lane')];
  return back.x > text.x || back.x + back.width < text.x + text.width || lanes.some(lane => lane.compareDocumentPosition(row) !== Node.DOCUMENT_POSITION_FOLLOWING);
}).length`;

async function tryWords(browser) {
  for (const name of ['unsolicited-status.journal', 'injected-reset.journal', 'late-status.journal', 'status-lost-then-reset.journal']) {
    await show(browser, example(name), script(name));
    check(`${name}: words beyond their columns`, await browser.ask(OVER), []);
    check(`${name}: remarks that are struck through`, await browser.ask(STRUCK), 0);
  }
  await show(browser, { name: 'words', text: LONG_WORDS });
  check('long words beyond their columns', await browser.ask(OVER), []);
}

// A filter that leaves fewer rows while the chart stands at its end.
async function tryFewer(browser) {
  await show(browser, { name: 'long', text: longJournal(3000) });
  await browser.ask(`${CHART}.scrollTop = 1e7`);
  await browser.press('End');
  await browser.ask("page.view.list = '0:1'; refilter()");
  const { height, rows, drawn } = await browser.ask(`({ height: byId('picture').getBoundingClientRect().height, rows: page.view.rows.length, drawn: byId('picture').querySelectorAll('g.row').length })`);
  check('fewer rows', rows > 0 && rows < 100 && height > 0, true);
  check('a row of them in sight', drawn > 0, true);
  await browser.ask("page.view.list = 'none'; refilter()");
  check('no row', await browser.ask("[page.view.rows.length, byId('empty').hidden]"), [0, false]);
  await browser.ask('unfilter()');
}

// A journal that ends inside a line is told as cut, with its script too.
async function tryCut(browser) {
  const whole = example('late-status.journal').text;
  const inside = whole.slice(0, whole.indexOf('ended 0 0 0 good') + 7);
  check('cut inside a line', await show(browser, { name: 'x', text: inside }), 'This journal is cut: it ends inside line 13.');
  check('cut, in the head', await browser.ask("[...byId('wrongs').children].map(link => link.textContent)"), ['1 ORB never taken', '1 line cut off']);
  check('cut, with its script', await show(browser, { name: 'x', text: inside }, script('late-status.journal')), 'This journal is cut: it ends inside line 13.');
  check('lines of the script up to there', await browser.ask('page.view.script.length'), 6);
  check('cut before its line feed', await show(browser, { name: 'x', text: whole.trimEnd() }), 'This journal may be cut: line 29, its last, ends without a line feed.');
  await browser.ask(`openPasted(${JSON.stringify(whole.trimEnd())})`);
  check('pasted', await browser.ask("byId('message').textContent"), '');
}

// A script alone that is not of the journal shown leaves that, and stands beside its own journal when that comes.
async function tryScriptAlone(browser) {
  await show(browser, example('late-status.journal'), script('late-status.journal'));
  const wanted = '“read-ahead.sbp2” is the script of another journal than “late-status.journal”: give its journal too, and both change.';
  await checkMessage(browser, 'a script of another journal', [example('read-ahead.sbp2')], wanted);
  check('the view stays', await browser.ask("[byId('name').textContent, page.view.script !== null]"), ['late-status.journal', true]);
  check('its journal comes', await show(browser, example('read-ahead.journal')), '');
  check('both change', await browser.ask("[byId('name').textContent, page.view.script !== null]"), ['read-ahead.journal', true]);
  await show(browser, example('late-status.journal'));
  check('its own script later', await show(browser, example('late-status.sbp2')), '');
  check('stands beside it', await browser.ask('page.view.script !== null'), true);
}

// There is room for the rows, with help put away where it is short.
async function tryRoom(browser, size) {
  await show(browser, example('late-status.journal'), script('late-status.journal'));
  await browser.press('Escape');
  const rows = () => browser.ask(`Math.floor((${CHART}.clientHeight - HEAD) / ROW)`);
  check('rows in sight', await rows() >= (size.scale > 1 ? 10 : 25), true);
  await browser.ask("document.querySelector('#tools details').open = true");
  check('the kinds in sight', await browser.ask("(box => box.left >= 0 && box.right <= innerWidth && box.bottom <= innerHeight)(byId('kinds-box').getBoundingClientRect())"), true);
  await browser.ask("document.querySelector('#tools details').open = false");
  check('help stands open', await browser.ask("!byId('panel').hidden"), size.scale === 1);
  await browser.press('ArrowDown');
  check('rows in sight beside the panel', await rows() >= (size.scale > 1 ? 6 : 25), true);
}

// Each row is a row in the tree of assistive technology, with its text; the chosen one is told to it.
async function tryAloud(browser) {
  await show(browser, example('late-status.journal'), script('late-status.journal'));
  await browser.ask(`${CHART}.focus()`);
  await browser.press('Escape');
  await browser.press('ArrowDown');
  await browser.press('ArrowDown');
  const { nodes } = await browser.send('Accessibility.getFullAXTree');
  const told = nodes.filter(node => !node.ignored);
  const names = role => told.filter(node => node.role.value === role).map(node => (node.name ? node.name.value : ''));
  const drawn = await browser.ask("byId('picture').querySelectorAll('g.row').length");
  check('a grid', [names('grid'), await browser.ask(`${CHART}.getAttribute('aria-rowcount')`)], [['The journal, a row a note'], '38']);
  check('its rows', names('row').length, drawn + 1);
  check('columns', names('columnheader'), ['line', 'script', 'what it says', 'journal']);
  const wanted = ['line 2: append 0 0 0 000000000000000000000000 none; Initiator 0 prepared ORB 0 of list 0: TEST UNIT READY, without a buffer.; wrong: ORB never taken; script: append 0 tur',
    'line 3: rung 0 0 0; The target is being told of list 0, up to ORB 0.', 'script: # A status block that comes late: the list that it is of was reset meanwhile.'];
  check('their texts', wanted.filter(text => !names('row').includes(text)), []);
  const chosen = told.filter(node => node.role.value === 'row' && (node.properties || []).some(({ name, value }) => name === 'selected' && value.value));
  check('the chosen row', chosen.map(node => node.name.value.slice(0, 21)), ['line 1: begin 1 ready']);
  check('is told', await browser.ask(`byId(${CHART}.getAttribute('aria-activedescendant')).getAttribute('aria-label').slice(0, 21)`), 'line 1: begin 1 ready');
  check('its place', await browser.ask("byId('row-1').getAttribute('aria-rowindex')"), '3');
  check('links', names('button').filter(name => name === '1 agent died').length, 1);
}

// Tasks that overlap stand side by side at the target's lane.
async function tryTasks(browser) {
  await show(browser, example('data-lost-while-others-run.journal'), script('data-lost-while-others-run.journal'));
  const tasks = await browser.ask('page.view.story.tasks.map(({ orb, place, begin, end }) => [orb.key, place, begin + 1, end + 1])');
  check('ORBs at work', tasks, [['0:0/0', 0, 27, 37], ['0:0/1', 1, 32, 37], ['0:1/0', 0, 74, 81]]);
  await browser.ask('goToNote(31)');
  const bars = await browser.ask("[...byId('picture').querySelectorAll('.task rect')].slice(0, 2).map(bar => { const { x, y, width, height } = bar.getBBox(); return [x - page.columns.lanes.t, width, y, y + height]; })");
  check('side by side', bars.length === 2 && bars[0][0] > 0 && bars[0][0] + bars[0][1] < bars[1][0], true);
  check('at one time', bars[1][2] < bars[0][3] && bars[0][2] < bars[1][3], true);
  check('words behind them', await browser.ask("[...byId('picture').querySelectorAll('g.row[data-note=\"36\"] .label')].every(label => label.getBBox().x > page.columns.lanes.t + 9 + 2 * BAR - 2)"), true);
  await browser.press('Escape');
  await browser.click("byId('picture').querySelector('.task[data-orb=\"0:0/1\"] rect')", 0.5, 0.3);
  check('a bar chooses its ORB', await browser.ask("byId('title').textContent"), 'ORB 0:0/1');
  await browser.press('o');
  check('its bar alone', await browser.ask("[...byId('picture').querySelectorAll('.task')].map(task => task.dataset.orb)"), ['0:0/1']);
  await browser.press('o');
}

// The notes of the queue stand at its initiator, and tell of a submission from its line to its status.
async function tryQueue(browser) {
  await show(browser, example('status-lost-then-reset.journal'), script('status-lost-then-reset.journal'));
  const marks = await browser.ask("page.view.story.notes.filter(({ row }) => row.of === 'queue').map(({ row, node }) => `${row.word} ${node}`)");
  check('notes of the queue', marks, ['submit 0', 'submit 0', 'idle 0', 'idle 0', 'idle 0', 'written 0', 'written 0', 'idle 0']);
  await browser.ask('goToNote(101)');
  check('a submission', await browser.ask("[byId('title').textContent, page.view.life.map(index => index + 1)]"), ['Submission 0', [2, 4, 5, 29, 30, 37, 42, 45, 71, 72, 96, 97, 101, 102]]);
}

// A journal and a script that mean harm are text and nothing else.
async function tryHarm(browser) {
  const harm = '<img/src=x/onerror=window.harm=1></text></svg><script>window.harm=1</script>';
  await show(browser, { name: `${harm}.journal`, text: `begin 1 ready\nstrange ${harm}\nsettled\n` });
  await browser.ask('goTo(1)');
  await browser.ask(`fillPages(); setQuery(${JSON.stringify(harm)})`);
  await show(browser, { name: `${harm}.journal`, text: 'begin 1 ready\nsettled\n' }, { name: `${harm}.sbp2`, text: `# ${harm}\nbegin 1 ready\nsettle\n` });
  await show(browser, { name: `${harm}.journal`, text: harm });
  check('harm', await browser.ask("[typeof window.harm, document.images.length, document.scripts.length]"), ['undefined', 0, 3]);
  await browser.ask("byId('pages').replaceChildren(); setQuery('')");
}

// A journal of so many lines: read-ahead.journal again and again, with new serials and lists.
function longJournal(count) {
  const [begin, ...body] = read('examples', 'read-ahead.journal').trim().split('\n');
  const lines = [begin];
  for (let turn = 0; lines.length < count; turn += 1) lines.push(...body.map(line => later(line, turn)));
  return `${lines.slice(0, count).join('\n')}\n`;
}

function later(line, turn) {
  const words = line.split(' ');
  if (words[0] === 'sent' || words[0] === 'got') words[1] = Number(words[1]) + 12 * turn;
  else if (words.length > 1) words[2] = turn;
  return words.join(' ');
}

// Goes to twenty places of the journal, and tells the first and the last row in sight at these places that were not drawn.
const PLACES = `(() => {
  const chart = byId('chart');
  const missing = [];
  for (let place = 0; place < 20; place += 1) {
    chart.scrollTop = place / 20 * page.view.rows.length * ROW;
    drawSeen(false);
    const first = Math.ceil(chart.scrollTop / ROW);
    const last = first + Math.floor(chart.clientHeight / ROW) - 2;
    missing.push(...[first, last].filter(row => !byId('picture').querySelector('g.row[data-row="' + row + '"]')));
  }
  return { missing, drawn: byId('picture').querySelectorAll('g.row').length, rows: page.view.rows.length };
})()`;

// The milliseconds that the page's thread works, the best of three: other programs' work does not lengthen them.
async function worked(browser, act) {
  await browser.send('Performance.enable', { timeDomain: 'threadTicks' });
  const now = async () => (await browser.send('Performance.getMetrics')).metrics.find(({ name }) => name === 'ThreadTime').value;
  const times = [];
  for (let tries = 0; tries < 3; tries += 1) {
    const begin = await now();
    await act();
    times.push(1000 * (await now() - begin));
  }
  return Math.min(...times);
}

async function measure(browser, count) {
  await browser.ask(`window.long = ${JSON.stringify(longJournal(count))}; 0`);
  const open = await worked(browser, () => browser.ask("openTexts([{ name: 'long', text: window.long }]); byId('picture').getBoundingClientRect().height"));
  const draw = await worked(browser, () => browser.ask(PLACES)) / 20;
  return { open, draw, ...await browser.ask(PLACES) };
}

async function tryLong(browser) {
  const small = await measure(browser, 10000);
  const large = await measure(browser, 100000);
  check('rows of a long journal', [small.rows, large.rows], [10000, 100000]);
  check('drawn rows of a long journal', large.drawn < 300, true);
  check('rows in sight that are not drawn', large.missing, []);
  const times = kind => `${Math.round(large[kind])} ms, ${(large[kind] / small[kind]).toFixed(1)} times as long as for 10,000`;
  console.log(`viewer/test: 100,000 lines open in ${times('open')}; a place is drawn in ${times('draw')}`);
  check('100,000 lines open in under two seconds', large.open < 2000, true);
  check('opening grows with the lines', large.open / small.open < 30, true);
  check('drawing does not', large.draw / small.draw < 5, true);
  await browser.ask('window.long = null');
}

const ONCE = [tryPage, tryPicture, tryExamples, trySentences, tryTable, tryFaults, tryFates, tryHands, tryHarm, tryLong];
const EACH = [
  tryWrongs, tryStrip, tryNames, tryAlone, tryPrint, tryWords, tryFewer, tryCut, tryScriptAlone, tryRoom, tryAloud, tryTasks, tryQueue,
];

// What throws has failed, and the rest is tried still.
async function tryOne(attempt, browser, size) {
  try {
    await attempt(browser, size);
  } catch (fault) {
    check(`${attempt.name} ends`, fault.message, '');
  }
}

async function main() {
  const browser = new Browser(process.argv[2]);
  try {
    await browser.open(PAGE);
    for (const attempt of ONCE) await tryOne(attempt, browser);
    for (const size of SIZES) {
      where = `${size.name}: `;
      await browser.load(PAGE, size);
      for (const attempt of EACH) await tryOne(attempt, browser, size);
    }
  } finally {
    await browser.close();
  }
  where = '';
  check('the console', browser.console, []);
  console.log(failures ? `viewer/test: ${failures} failed` : 'viewer/test: passed');
  process.exitCode = failures ? 1 : 0;
}

main().catch(fault => { console.log(`viewer/test: ${fault.message}`); process.exitCode = 1; });
