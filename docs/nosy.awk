# The quadlets of a log of `nosy-dump -o`, one a line, become lines of packets with their CRCs: the log has a length in bytes, the
# time, the packet and its acknowledge in turn. Bus resets and what the physical layers say, which are shorter, are left out.
function value(digits,    i, n) {
    for (i = 1; i <= length(digits); i++) n = 16 * n + index("0123456789abcdef", substr(digits, i, 1)) - 1
    return n
}
left == 0 { size = left = int((value($1) + 3) / 4); line = ""; next }
{
    if (left < size) line = line $1
    if (--left == 0 && size > 4) print line
}
