# Text for XML: only characters that it allows, in plain ASCII, none of them read as markup. For views that draw.

BEGIN { for (code = 1; code < 256; code++) code_of[sprintf("%c", code)] = code }

# A text from outside, of at most `most` characters: of a longer one the end, after three dots.
function xml(text, most,    signs, n, i, out) {
    n = characters(text, signs)
    for (i = n > most ? n - most + 4 : 1; i <= n; i++) out = out signs[i]
    return (n > most ? "..." : "") out
}

# The characters of a text in UTF-8, each as XML writes it; `?` for a byte that is none, or none that XML has.
function characters(text, signs,    at, n, bytes, code) {
    for (at = 1; at <= length(text); at += bytes) {
        bytes = bytes_of(text, at)
        code = bytes ? decoded(text, at, bytes) : 0
        if (!allowed(code, bytes)) { bytes = 1; code = 63 }
        signs[++n] = code >= 127 || index("&<>\"'", sprintf("%c", code)) ? "&#" code ";" : sprintf("%c", code)
    }
    return n + 0
}

# How many bytes the character at this place says it has, 0 where none begins.
function bytes_of(text, at,    first) {
    first = code_of[substr(text, at, 1)]
    return first < 128 ? 1 : first < 192 ? 0 : first < 224 ? 2 : first < 240 ? 3 : first < 248 ? 4 : 0
}

# Its number, 0 where one of its bytes is missing or does not go on.
function decoded(text, at, bytes,    code, i, next_one) {
    code = code_of[substr(text, at, 1)]
    if (bytes > 1) code -= bytes == 2 ? 192 : bytes == 3 ? 224 : 240
    for (i = 1; i < bytes; i++) {
        next_one = code_of[substr(text, at + i, 1)]
        if (next_one < 128 || next_one > 191) return 0
        code = 64 * code + next_one - 128
    }
    return code
}

# Written as shortly as it can be, and a character that XML 1.0 may hold; controls are left out.
function allowed(code, bytes) {
    if (code < (bytes == 1 ? 32 : bytes == 2 ? 160 : bytes == 3 ? 2048 : 65536) || code == 127) return 0
    return (code < 55296 || code > 57343) && code != 65534 && code != 65535 && code < 1114112
}
