# A line of hexadecimal digits of a packet with its CRCs (IEEE 1394) becomes one without them: by the tcode, the seventh digit.
function value(digits,    i, n) {
    for (i = 1; i <= length(digits); i++) n = 16 * n + index("0123456789ABCDEF", substr(digits, i, 1)) - 1
    return n
}
{
    digits = toupper($0)
    gsub(/[^0-9A-F]/, "", digits)
    tcode = substr(digits, 7, 1)
    if (tcode ~ /[24]/) print substr(digits, 1, 24)
    else if (tcode ~ /[056]/) print substr(digits, 1, 32)
    else print substr(digits, 1, 32) substr(digits, 41, 8 * int((value(substr(digits, 25, 4)) + 3) / 4))
}
