// Changes to texts and words: bytes, tokens, numbers, splices, lists wrapped, copied and moved, long repeats.
#include "robust.h"
#include <string.h>

// Puts bytes in the place of `gone` bytes, as many as there is room for.
static size_t replace(u8 *text, size_t len, size_t room, size_t at, size_t gone, const u8 *bytes, size_t n)
{
    if (len - gone + n > room)
        n = room - (len - gone);
    memmove(text + at + n, text + at + gone, len - at - gone);
    memcpy(text + at, bytes, n);
    return len - gone + n;
}

// Mostly a byte of a text that is UTF-8 still.
static u8 any_byte(void)
{
    return (u8)(below(8) ? 32 + below(95) : random_u64());
}

static size_t token(u8 *text, size_t len, size_t room, size_t at, size_t gone)
{
    u8 bytes[160];
    const char *word = dictionary[below(dictionary_size)];
    size_t n = 0, length = strlen(word);
    if (below(2))
        bytes[n++] = ' ';
    memcpy(bytes + n, word, length);
    n += length;
    if (below(2))
        bytes[n++] = ' ';
    return replace(text, len, room, at, gone, bytes, n);
}

static int ends_atom(u8 b)
{
    return b <= ' ' || b == '(' || b == ')' || b == '"';
}

// The atom or list that begins at or behind a random place: where, and how long; 0 if there is none.
static size_t item(const u8 *text, size_t len, size_t *at)
{
    size_t i = len ? below(len) : 0;
    while (i < len && (text[i] <= ' ' || text[i] == ')'))
        i++;
    *at = i;
    if (i == len)
        return 0;
    size_t open = 0, j = i;
    if (text[i] != '(') {
        while (j < len && !ends_atom(text[j]))
            j++;
        return j > i ? j - i : 1;
    }
    for (; j < len; j++) {
        open += text[j] == '(';
        open -= text[j] == ')';
        if (open == 0)
            return j + 1 - i;
    }
    return 0;
}

// Wraps an item in lists of one form, up to past the limit of nesting.
static size_t wrap(u8 *text, size_t len, size_t room)
{
    static const char *const forms[] = {
        "(", "(not ", "(and x ", "(Set_Set ", "(exists ((x Int)) ", "(let (x 1) ", "(let (x x) ", "((as apply Int) ", "(- ", "(A ",
    };
    const char *form = forms[below(sizeof forms / sizeof forms[0])];
    size_t at, n = item(text, len, &at), times = below(4) ? 1 : 1 + below(66);
    for (; n > 0 && times > 0 && len + strlen(form) + 1 <= room; times--) {
        len = replace(text, len, room, at + n, 0, (const u8 *)")", 1);
        len = replace(text, len, room, at, 0, (const u8 *)form, strlen(form));
        n += strlen(form) + 1;
    }
    return len;
}

static size_t digits(u8 *text, size_t len, size_t room)
{
    u8 bytes[48];
    size_t n = 1 + below(below(4) ? 6 : 44);
    for (size_t i = 0; i < n; i++)
        bytes[i] = (u8)('0' + (below(3) ? below(10) : 9 * below(2)));
    if (below(4) == 0)
        bytes[0] = "+-.e"[below(4)];
    size_t at, gone = item(text, len, &at);
    return replace(text, len, room, at, below(2) ? gone : 0, bytes, n);
}

static size_t one_text(u8 *text, size_t len, size_t room, const u8 *other, size_t other_len)
{
    size_t at = below(len + 1), from, n, many;
    u8 copy[4096];
    switch (below(14)) {
    case 0:
        if (at < len)
            text[at] ^= (u8)(1u << below(below(4) ? 7 : 8));
        return len;
    case 1:
        if (at < len)
            text[at] = any_byte();
        return len;
    case 2:
        copy[0] = below(2) ? (u8)"()\"@ $#+-.e\n"[below(12)] : any_byte();
        return replace(text, len, room, at, 0, copy, 1);
    case 3:
        n = below(8) ? below(4) : below(len + 1);
        return at + n <= len ? replace(text, len, room, at, n, copy, 0) : at;
    case 4: return token(text, len, room, at, 0);
    case 5: case 6:
        n = item(text, len, &at);
        return token(text, len, room, at, n);
    case 7: // another text's range
        from = below(other_len + 1);
        n = below(other_len - from + 1);
        return replace(text, len, room, at, 0, other + from, n);
    case 8: case 9: // another text's item
        n = item(other, other_len, &from);
        many = item(text, len, &at);
        return replace(text, len, room, at, below(3) ? many : 0, other + from, n);
    case 10: // an item again, or far more often
        n = item(text, len, &at);
        if (n == 0 || n > sizeof copy)
            return len;
        memcpy(copy, text + at, n);
        for (many = below(8) ? 1 : 1 + below(80); many > 0 && len + n <= room; many--)
            len = replace(text, len, room, at, 0, copy, n);
        return len;
    case 11: return wrap(text, len, room);
    case 12: return digits(text, len, room);
    default: return below(4) ? len : at;
    }
}

size_t mutate_text(u8 *text, size_t len, size_t room, const u8 *other, size_t other_len)
{
    for (size_t n = 1 + below(below(2) ? 2 : 8); n > 0; n--)
        len = one_text(text, len, room, other, other_len);
    return len;
}

static size_t move_words(u32 *words, size_t n, size_t room, size_t at, size_t gone, const u32 *from, size_t many)
{
    return replace((u8 *)words, n * 4, room * 4, at * 4, gone * 4, (const u8 *)from, many * 4) / 4;
}

static size_t one_words(u32 *words, size_t n, size_t room, const u32 *other, size_t other_n)
{
    static const u32 links[][6] = {{39}, {44}, {42, 1}, {43, 2, 33, 1}, {38, 0, 0}, {38, 0, 1, 33, 1},
                                   {38, 1, 1, 33, 1, 2}, {51, 0}, {52, 3, 0, 33, 1}, {5}, {9, 0}, {10, 0, 1}};
    static const size_t sizes[] = {1, 1, 2, 4, 3, 5, 6, 2, 5, 1, 2, 3};
    size_t at = below(n + 1), from, many, i;
    u32 copy[64];
    switch (below(9)) {
    case 0:
        if (at < n)
            words[at] ^= 1u << below(32);
        return n;
    case 1: case 2:
        if (at < n)
            words[at] = below(4) ? (u32)below(56) : (u32)random_u64() | (u32)-(int)below(2);
        return n;
    case 3:
        copy[0] = (u32)below(56);
        return move_words(words, n, room, at, 0, copy, 1);
    case 4:
        many = below(n - at + 1);
        return move_words(words, n, room, at, many > 4 ? below(4) : many, copy, 0);
    case 5: case 6:
        from = below(other_n + 1);
        return move_words(words, n, room, at, below(n - at + 1), other + from, below(other_n - from + 1));
    case 7:
        i = below(sizeof sizes / sizeof sizes[0]);
        for (many = below(4) ? 1 : 1 + below(130); many > 0 && n + sizes[i] <= room; many--)
            n = move_words(words, n, room, at, 0, links[i], sizes[i]);
        return n;
    default:
        return move_words(words, n, room, at, 0, copy, grow_words(copy, 64));
    }
}

size_t mutate_words(u32 *words, size_t n, size_t room, const u32 *other, size_t other_n)
{
    for (size_t many = 1 + below(below(2) ? 2 : 6); many > 0; many--)
        n = one_words(words, n, room, other, other_n);
    return n;
}
