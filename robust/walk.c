// Walks words as document 01 lays them out: trees, sorts, expressions, binds and solutions.
#include "robust.h"
#include <string.h>

#define DEEPEST 128
#define MOST_FRESH 262144

struct fresh walk_fresh[MOST_FRESH];
size_t walk_freshes;
u64 walk_new;

static const u32 *words;
static size_t size, at;
static u32 why; // the first refusal met, 0 so far
static u64 text_len;
static u8 met[1 << 21];
static int answer; // whether the words are an answer
static int from_text; // whether they are that to a text
static u64 scope[MOST_FRESH]; // the numbers that are bound where the walk is
static size_t in_scope;
int walk_learning;

// Three kinds, one inside the other, were met in an answer.
static void shape(u32 outer, u32 middle, u32 inner)
{
    size_t i = ((outer & 127) << 14) | ((middle & 127) << 7) | (inner & 127);
    if (walk_learning && answer && !met[i]) {
        met[i] = 1;
        walk_new++;
    }
}

static u32 take(void)
{
    if (why == 0 && at == size)
        why = 14;
    return why ? 0 : words[at++];
}

static u32 take_below(u32 end)
{
    u32 x = take();
    if (why == 0 && x >= end)
        why = 14;
    return x;
}

static void span(void)
{
    u64 start = take(), length = take();
    if (why == 0 && start + length > text_len)
        why = 14;
}

static void skip(int n)
{
    while (n-- > 0)
        take();
}

static u64 fresh(u32 binds)
{
    if (walk_freshes < MOST_FRESH) {
        walk_fresh[walk_freshes].at = (u32)at;
        walk_fresh[walk_freshes++].binds = binds;
    }
    u64 low = take();
    return low | (u64)take() << 32;
}

// A number is bound from here on, until what binds it ends.
static void bound(u64 number)
{
    if (in_scope < MOST_FRESH)
        scope[in_scope++] = number;
}

// In the answer to a text a number is used inside what binds it.
static void used(u64 number)
{
    size_t i = in_scope;
    if (why || !from_text)
        return;
    while (i > 0 && scope[i - 1] != number)
        i--;
    if (i == 0)
        why = 14;
}

static void sort(u32 outer, u32 middle)
{
    u32 kind = take();
    if (why)
        return;
    shape(outer, middle, kind);
    switch (kind) {
    case 1: case 2: case 3: case 4: return;
    case 5: sort(middle, kind); return;
    case 6: skip(1); return;
    case 7: skip(2); return;
    case 8: sort(middle, kind); sort(middle, kind); return;
    case 9: skip(1); sort(middle, kind); return;
    case 10:
        if (take_below(3) == 2)
            span();
        for (u32 n = take(); n > 0 && why == 0; n--)
            sort(middle, kind);
        return;
    default: why = 14;
    }
}

static void binders(u32 outer, u32 middle)
{
    for (u32 n = take(); n > 0 && why == 0; n--) {
        bound(fresh(1));
        sort(outer, middle);
    }
}

// A literal of a text has a digit at least, all of them in the text, and a value that has room in them.
static void literal(void)
{
    u32 value[4];
    for (int i = 0; i < 4; i++)
        value[i] = take();
    u32 width = take();
    if (why || !from_text)
        return;
    if (width == 0 || width > text_len)
        why = 14;
    for (u32 i = 0; i < 4; i++)
        if (width < 32 * (i + 1) && value[i] >> (width > 32 * i ? width - 32 * i : 0) != 0)
            why = 14;
}

static void expr(int inside, u32 outer, u32 middle)
{
    u32 kind = take();
    if (why == 0 && (kind < 32 || kind > 52))
        why = 14;
    if (why == 0 && inside >= DEEPEST)
        why = 6;
    if (why)
        return;
    shape(outer, middle, kind);
    u32 children = 0, flag;
    size_t before = in_scope;
    u64 number;
    switch (kind) {
    case 32: skip(4); break;
    case 33: take_below(2); break;
    case 34: case 37: span(); break;
    case 35: literal(); break;
    case 36: used(fresh(0)); break;
    case 38:
        flag = take_below(2);
        for (u32 n = take(); n > 0 && why == 0; n--)
            expr(inside + 1, middle, kind);
        if (flag == 1 && why == 0)
            sort(middle, kind);
        children = 1;
        break;
    case 39: case 44: children = 1; break;
    case 40: take_below(5); children = 2; break;
    case 41: children = 3; break;
    case 42: case 43: children = take(); break;
    case 45: case 46: children = 2; break;
    case 47: take_below(6); children = 2; break;
    case 48: // a let of a name, which no text is read as
        if (from_text)
            why = 14;
        span();
        children = 2;
        break;
    case 49: take_below(42); break;
    case 50: span(); children = 1; break;
    case 51: binders(middle, kind); children = 1; break;
    default: // a let binds its number in its body, and not in its binding
        number = fresh(1);
        expr(inside + 1, middle, kind);
        bound(number);
        children = 1;
    }
    for (; children > 0 && why == 0; children--)
        expr(inside + 1, middle, kind);
    in_scope = before;
}

static void tree(int inside)
{
    u32 kind = take();
    shape((u32)inside, 0, kind);
    switch (kind) {
    case 16: case 17: case 19: span(); return;
    case 18: skip(4); return;
    case 20: take_below(2); return;
    case 21: break;
    default: why = 14; return;
    }
    u32 n = take(), length = take();
    size_t start = at;
    for (; n > 0 && why == 0; n--)
        tree(inside + 1);
    if (why == 0 && (at - start != length || inside >= 64))
        why = 14;
}

static void predicate(void)
{
    u32 kind = take();
    if (kind == 65) {
        expr(0, 0, 65);
        return;
    }
    if (kind != 64)
        why = 14;
    span();
    for (u32 n = take(); n > 0 && why == 0; n--)
        if (take() == 37)
            span();
        else
            why = 14;
}

static void begin(const u32 *from, size_t n, u64 text)
{
    words = from;
    size = n;
    at = 0;
    why = 0;
    text_len = text;
    walk_freshes = 0;
    in_scope = 0;
    answer = from_text = 0;
}

static u32 end(void)
{
    if (why == 0 && at != size)
        why = 14;
    return why;
}

// What flatten should say of these words, but for 7.
u32 walk_expression(const u32 *from, size_t n)
{
    begin(from, n, UINT64_MAX);
    expr(0, 0, 0);
    return end();
}

// What smtlib should say of these words over a text of so many bytes, but for 15, 16 and 7.
u32 walk_solution(const u32 *from, size_t n, u64 text)
{
    begin(from, n, text);
    binders(0, 127);
    if (why == 0)
        expr(0, 0, 0);
    return end();
}

// Where a solution's expression begins.
size_t walk_parameters(const u32 *from, size_t n)
{
    begin(from, n, UINT64_MAX);
    binders(0, 127);
    return at;
}

// 0 if the words are such as this operation answers, and all its spans lie inside the text.
u32 walk_answer(const struct call *c, const struct reply *r)
{
    begin(r->words, r->n, c->op == FLATTEN ? UINT64_MAX : c->len);
    answer = 1;
    from_text = c->op != FLATTEN;
    switch (c->op) {
    case READ_ONE: tree(0); break;
    case READ_ALL:
        for (u64 n = r->a; n > 0 && why == 0; n--)
            tree(0);
        break;
    case SORT: sort(0, 0); break;
    case SOLUTION: binders(0, 127); expr(0, 0, 0); break;
    case BIND:
        span();
        sort(0, 126);
        for (u32 n = take(); n > 0 && why == 0; n--)
            predicate();
        break;
    default: expr(0, 0, 0);
    }
    return end();
}
