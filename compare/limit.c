/* Read one as a person might write it by hand in C for speed, without a proof: what the proved reader is measured against as the limit.
   The same answers, words and refusals, on lent slices and without allocation. One table says what a byte begins and another which bytes go on
   inside an atom, ASCII is checked in blocks, numbers of up to 18 digits are added up in one machine word, and a word that does not fit is not
   written, since the whole output is cleared in the end. */

#include <stdint.h>
#include <stddef.h>
#include <string.h>

enum { MAX_BYTES = 32768, MAX_LISTS = 64 };
enum { SYMBOL = 16, QUOTED = 17, INTEGER = 18, DECIMAL = 19, BOOLEAN = 20, LIST = 21 };

/* What a byte begins: a symbol or a boolean; perhaps a number; white space; a token of its own; a character outside ASCII. */
enum { LETTER, NUMBER, BLANK, OPENS, CLOSES, QUOTE, AT, HIGH };

static const uint8_t begins[256] = {
    ['0' ... '9'] = NUMBER, ['+'] = NUMBER, ['-'] = NUMBER, ['.'] = NUMBER,
    [9 ... 13] = BLANK, [' '] = BLANK, ['('] = OPENS, [')'] = CLOSES, ['"'] = QUOTE, ['@'] = AT, [0x80 ... 0xff] = HIGH,
};

/* 1 for the ASCII bytes before which an atom does not end. */
static const uint8_t inside[256] = { [0 ... 8] = 1, [14 ... 31] = 1, ['!'] = 1, ['#' ... '\''] = 1, ['*' ... 0x7f] = 1 };

static int is_ascii(const uint8_t *text, size_t len)
{
    size_t i = 0;
    for (; i + 32 <= len; i += 32) {
        uint64_t a, b, c, d;
        memcpy(&a, text + i, 8);
        memcpy(&b, text + i + 8, 8);
        memcpy(&c, text + i + 16, 8);
        memcpy(&d, text + i + 24, 8);
        if ((a | b | c | d) & 0x8080808080808080u)
            return 0;
    }
    for (; i < len; i++)
        if (text[i] >= 0x80)
            return 0;
    return 1;
}

/* How many bytes the well-formed character has that begins here; 0 if none does. */
static size_t character(const uint8_t *s, size_t len)
{
    uint8_t b = s[0], low = 0x80, high = 0xbf;
    size_t n = b < 0x80 ? 1 : b < 0xc2 ? 0 : b < 0xe0 ? 2 : b < 0xf0 ? 3 : b < 0xf5 ? 4 : 0;
    if (b == 0xe0)
        low = 0xa0;
    if (b == 0xed)
        high = 0x9f;
    if (b == 0xf0)
        low = 0x90;
    if (b == 0xf4)
        high = 0x8f;
    if (n > len)
        return 0;
    for (size_t i = 1; i < n; i++) {
        if (s[i] < low || s[i] > high)
            return 0;
        low = 0x80;
        high = 0xbf;
    }
    return n;
}

static int is_utf8(const uint8_t *text, size_t len)
{
    for (size_t i = 0; i < len;) {
        size_t n = character(text + i, len - i);
        if (n == 0)
            return 0;
        i += n;
    }
    return 1;
}

/* How many bytes the white space character outside ASCII has that begins here; 0 if none does. The text is well-formed. */
static size_t high_space(const uint8_t *s)
{
    if (s[0] == 0xc2)
        return s[1] == 0x85 || s[1] == 0xa0 ? 2 : 0;
    if (s[0] == 0xe1)
        return s[1] == 0x9a && s[2] == 0x80 ? 3 : 0;
    if (s[0] == 0xe2 && s[1] == 0x80)
        return s[2] <= 0x8a || s[2] == 0xa8 || s[2] == 0xa9 || s[2] == 0xaf ? 3 : 0;
    if (s[0] == 0xe2)
        return s[1] == 0x81 && s[2] == 0x9f ? 3 : 0;
    if (s[0] == 0xe3)
        return s[1] == 0x80 && s[2] == 0x80 ? 3 : 0;
    return 0;
}

static size_t atom_end(const uint8_t *text, size_t len, size_t at)
{
    for (;;) {
        while (at < len && inside[text[at]])
            at++;
        if (at == len || begins[text[at]] != HIGH || high_space(text + at))
            return at;
        at++;
    }
}

static int is_digit(uint8_t b)
{
    return (uint8_t)(b - '0') < 10;
}

static const uint8_t *digits(const uint8_t *s, const uint8_t *end)
{
    while (s < end && is_digit(*s))
        s++;
    return s;
}

/* Whether these bytes are a decimal without a sign. */
static int is_decimal(const uint8_t *s, const uint8_t *end)
{
    const uint8_t *whole = digits(s, end), *part = whole;
    size_t found = (size_t)(whole - s);
    if (part < end && *part == '.') {
        part = digits(whole + 1, end);
        found += (size_t)(part - whole - 1);
    }
    if (found == 0)
        return 0;
    if (part == end)
        return 1;
    if (*part != 'e' && *part != 'E')
        return 0;
    part++;
    if (part < end && (*part == '+' || *part == '-'))
        part++;
    return part < end && digits(part, end) == end;
}

/* Whether all of these bytes are digits, at least one, and the number is an integer's of 128 bits. */
static int long_integer(const uint8_t *s, const uint8_t *end, int minus, unsigned __int128 *value)
{
    unsigned __int128 v = 0, most = ((unsigned __int128)1 << 127) - !minus;
    if (s == end || digits(s, end) != end)
        return 0;
    for (; s < end; s++) {
        unsigned digit = (unsigned)(*s - '0');
        if (v > (most - digit) / 10)
            return 0;
        v = 10 * v + digit;
    }
    *value = minus ? -v : v;
    return 1;
}

static uint32_t scan(const uint8_t *text, size_t len, uint32_t *out, size_t room, size_t *words, size_t *next)
{
    uint32_t offs[MAX_LISTS], counts[MAX_LISTS + 1];
    size_t at = 0, w = 0, depth = 0;
    counts[0] = 0;
    while (at < len) {
        uint32_t kind = SYMBOL;
        size_t start = at, end;
        switch (begins[text[at]]) {
        case BLANK:
            at++;
            continue;
        case OPENS:
            if (depth == MAX_LISTS)
                return 6;
            if (w + 3 <= room)
                out[w] = LIST;
            offs[depth++] = (uint32_t)w;
            counts[depth] = 0;
            w += 3;
            at++;
            continue;
        case CLOSES: {
            if (depth == 0)
                return 4;
            uint32_t children = counts[depth--];
            size_t off = offs[depth];
            if (off + 3 <= room) {
                out[off + 1] = children;
                out[off + 2] = (uint32_t)(w - off - 3);
            }
            at++;
            goto read;
        }
        case QUOTE: {
            const uint8_t *close = memchr(text + at + 1, '"', len - at - 1);
            if (!close)
                return 5;
            kind = QUOTED;
            start = at + 1;
            end = (size_t)(close - text);
            at = end + 1;
            break;
        }
        case AT: {
            const uint8_t *close = memchr(text + at + 1, ')', len - at - 1);
            if (!close)
                return 5;
            end = (size_t)(close - text) + 1;
            at = end;
            break;
        }
        case NUMBER: {
            int minus = text[at] == '-', sign = minus || text[at] == '+';
            const uint8_t *s = text + at + sign, *e;
            uint64_t low = 0, high = 0;
            end = atom_end(text, len, at + 1);
            e = text + end;
            if (s < e && e - s <= 18) {
                const uint8_t *d = s;
                for (; d < e && is_digit(*d); d++)
                    low = 10 * low + (uint64_t)(*d - '0');
                if (d == e) {
                    if (minus && low) {
                        low = -low;
                        high = ~(uint64_t)0;
                    }
                    goto integer;
                }
            } else if (s < e) {
                unsigned __int128 value;
                if (long_integer(s, e, minus, &value)) {
                    low = (uint64_t)value;
                    high = (uint64_t)(value >> 64);
                    goto integer;
                }
            }
            if (is_decimal(s, e))
                kind = DECIMAL;
            at = end;
            break;
        integer:
            if (w + 5 <= room) {
                out[w] = INTEGER;
                out[w + 1] = (uint32_t)low;
                out[w + 2] = (uint32_t)(low >> 32);
                out[w + 3] = (uint32_t)high;
                out[w + 4] = (uint32_t)(high >> 32);
            }
            w += 5;
            at = end;
            goto read;
        }
        case HIGH: {
            size_t n = high_space(text + at);
            if (n) {
                at += n;
                continue;
            }
        }
            /* fall through */
        default:
            end = atom_end(text, len, at + 1);
            at = end;
            if ((end - start == 4 && !memcmp(text + start, "true", 4)) || (end - start == 5 && !memcmp(text + start, "false", 5))) {
                if (w + 2 <= room) {
                    out[w] = BOOLEAN;
                    out[w + 1] = end - start == 4;
                }
                w += 2;
                goto read;
            }
        }
        if (w + 3 <= room) {
            out[w] = kind;
            out[w + 1] = (uint32_t)start;
            out[w + 2] = (uint32_t)(end - start);
        }
        w += 3;
    read:
        counts[depth]++;
        if (depth == 0) {
            *words = w;
            *next = at;
            return w <= room ? 0 : 7;
        }
        if (at < len && text[at] == ' ')
            at++;
    }
    return 3;
}

uint32_t limit_read_one(const uint8_t *text, size_t text_len, uint32_t *out, size_t out_len, uint64_t *words, uint64_t *next)
{
    size_t w = 0, n = 0;
    uint32_t refusal = text_len > MAX_BYTES ? 1
        : !is_ascii(text, text_len) && !is_utf8(text, text_len) ? 2
        : scan(text, text_len, out, out_len, &w, &n);
    if (refusal) {
        memset(out, 0, out_len * sizeof *out);
        w = n = 0;
    }
    *words = w;
    *next = n;
    return refusal;
}
