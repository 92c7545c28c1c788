// Everything that is held against one input: both sides, the same answer twice, lengths round the answer's, another count, flattening again.
#include "robust.h"
#include <inttypes.h>
#include <stdlib.h>
#include <string.h>

u64 accepted_inputs, refused_inputs[REFUSALS];
size_t needed_words, needed_tree;

static u32 kept_words[WORDS_ROOM];
static struct fresh kept_fresh[1 << 18];

// Slices that are long enough for any text: a tree takes at most 13 words for 4 bytes, an answer some 17 words a byte.
struct call roomy(enum op op, const u8 *bytes, size_t len)
{
    size_t n = len > MAX_TEXT ? 0 : len;
    struct call c = {op, bytes, len, 4 * n + 8, 20 * n + 64, 20 * n + 64, 0};
    if (op == READ_ONE || op == READ_ALL)
        c.out = c.tree;
    if (op == FLATTEN)
        c.out = len / 4;
    // Enough for the words themselves and for names that are mostly short; one name for each word would take more.
    if (op == SMTLIB)
        c.out = 20 * (len / 4) + 1024;
    if (c.out * element(op) > 3 * WORDS_ROOM)
        c.out = 3 * WORDS_ROOM / element(op);
    return c;
}

static void same(const struct call *c, const struct reply *first, const struct reply *second, const char *when)
{
    if (first->refusal != second->refusal || first->a != second->a || first->b != second->b || first->count != second->count)
        fail(c, "another reply %s: %" PRIu32 " %" PRIu64 " %" PRIu64 " %" PRIu64, when, second->refusal, second->a, second->b, second->count);
    if (memcmp(kept_words, second->words, first->n * element(c->op)) != 0)
        fail(c, "other words %s", when);
}

// The numbers bound are those from the count to the count after, each once, and no other is used.
static void numbers_bound(const struct call *c, const struct reply *r)
{
    u64 bound = r->count - c->count, met = 0;
    if (bound > walk_freshes)
        fail(c, "the count grows by %" PRIu64, bound);
    u8 *seen = calloc(bound + 1, 1);
    for (size_t i = 0; i < walk_freshes; i++) {
        u64 number = kept_words[walk_fresh[i].at] | (u64)kept_words[walk_fresh[i].at + 1] << 32;
        if (number < c->count || number - c->count >= bound)
            fail(c, "the number %" PRIu64 " is not the answer's own", number);
        if (walk_fresh[i].binds) {
            met++;
            if (seen[number - c->count]++)
                fail(c, "the number %" PRIu64 " is bound twice", number);
        }
    }
    free(seen);
    if (met != bound)
        fail(c, "%" PRIu64 " numbers are bound, and the count grows by %" PRIu64, met, bound);
}

// The same call at count 0: the same answer with its fresh numbers lower by the count, or 13.
static void new_reader(const struct call *c, const struct reply *r)
{
    struct call young = *c;
    young.count = 0;
    size_t freshes = walk_freshes;
    struct reply s = lend_call(&young, 0);
    if (r->refusal == 13) {
        if (s.refusal == 0 && c->count <= UINT64_MAX - s.count)
            fail(c, "13 with room for %" PRIu64 " numbers", s.count);
        if (s.refusal != 0 && s.refusal != 7)
            fail(c, "13 before %" PRIu32, s.refusal);
        return;
    }
    if (s.refusal != r->refusal)
        fail(c, "at count 0 the refusal is %" PRIu32, s.refusal);
    if (r->refusal != 0)
        return;
    if (s.a != r->a || s.count != r->count - c->count)
        fail(c, "at count 0 other numbers are reported");
    memcpy(kept_fresh, walk_fresh, freshes * sizeof(struct fresh));
    size_t at = 0;
    for (size_t i = 0; i < freshes; i++) {
        size_t f = kept_fresh[i].at;
        u64 old = kept_words[f] | (u64)kept_words[f + 1] << 32, young_number = s.words[f] | (u64)s.words[f + 1] << 32;
        if (memcmp(kept_words + at, s.words + at, (f - at) * 4) != 0 || old - c->count != young_number)
            fail(c, "at count 0 other words");
        at = f + 2;
    }
    if (memcmp(kept_words + at, s.words + at, (r->n - at) * 4) != 0)
        fail(c, "at count 0 other words");
}

// Flattening words that are flat already changes nothing.
static void flat_already(const struct call *c, size_t from, size_t n)
{
    struct call f = {FLATTEN, (const u8 *)(kept_words + from), (n - from) * 4, 0, 0, n - from, 0};
    struct reply r = lend_call(&f, 0);
    if (r.refusal != 0 || r.n != n - from || memcmp(kept_words + from, r.words, r.n * 4) != 0)
        fail(c, "flattening the answer gives %" PRIu32 " and %zu words of %zu", r.refusal, r.n, n - from);
}

// Output slices of just the words and of one fewer.
static void other_lengths(const struct call *c, const struct reply *r)
{
    struct call d = *c;
    d.out = r->n;
    struct reply s = lend_call(&d, 0);
    same(c, r, &s, "with an output of its length");
    if (d.out == 0)
        return;
    d.out--;
    s = lend_call(&d, 1);
    if (s.refusal != 7)
        fail(c, "with one element fewer the refusal is %" PRIu32, s.refusal);
}

// The operations over a tree refuse first what read one refuses, with the tree as its output.
static void as_read(const struct call *c, u32 refusal)
{
    struct call d = *c;
    d.op = READ_ONE;
    d.out = c->tree;
    struct reply s = lend_call(&d, 0);
    if (s.refusal != 0 && s.refusal != refusal)
        fail(c, "read one refuses %" PRIu32 ", and this %" PRIu32, s.refusal, refusal);
    if (s.refusal == 0 && refusal >= 1 && refusal <= 6)
        fail(c, "read one accepts, and this refuses %" PRIu32, refusal);
    needed_tree = s.n;
}

static void judged(const struct call *c, u32 refusal)
{
    const u32 *words = (const u32 *)(const void *)c->bytes;
    int term = c->op == SMTLIB;
    u32 should = term ? walk_solution(words, c->len / 4, LENT_TEXT) : walk_expression(words, c->len / 4);
    int later = refusal == 7 || (term && (refusal == 15 || refusal == 16));
    if (refusal != should && !(later && should == 0))
        fail(c, "the refusal is %" PRIu32 ", and not %" PRIu32, refusal, should);
}

// A term: a list and an item with one space between, in bytes that may stand there; outside strings and bars no two spaces meet.
static int is_term(const u8 *bytes, size_t n)
{
    size_t open = 0, items = 0;
    u8 quote = 0;
    for (size_t i = 0; i < n; i++) {
        u8 b = bytes[i], before = i ? bytes[i - 1] : ' ';
        if (b < 32 || b > 126 || b == '\\')
            return 0;
        if (quote) {
            quote = b == quote ? 0 : quote;
            continue;
        }
        items += open == 0 && before == ' ';
        if (b == '|' || b == '"')
            quote = b;
        if (b == ')' && open-- == 0)
            return 0;
        open += b == '(';
        if (b == ' ' && (before == ' ' || before == '('))
            return 0;
    }
    return n > 0 && bytes[0] == '(' && open == 0 && quote == 0 && items == 2;
}

// Words of an expression: flattening takes them, and makes none more.
static void can_be_flattened(const struct call *c, size_t n)
{
    struct call f = {FLATTEN, (const u8 *)kept_words, n * 4, 0, 0, n, 0};
    struct reply r = lend_call(&f, 1);
    if (r.refusal != 0)
        fail(c, "flattening the answer refuses %" PRIu32, r.refusal);
}

void check_input(const struct call *c)
{
    struct reply r = lend_call(c, 0);
    memcpy(kept_words, r.words, r.n * element(c->op));
    struct reply s = lend_call(c, 1);
    same(c, &r, &s, "the second time");
    r.words = kept_words;
    refused_inputs[r.refusal]++;
    needed_words = r.n;
    needed_tree = 0;
    if (r.refusal == 0) {
        accepted_inputs++;
        other_lengths(c, &r);
        if (c->op == SMTLIB ? !is_term((const u8 *)kept_words, r.n) : walk_answer(c, &r) != 0)
            fail(c, "the words or bytes are no answer of this operation");
        if (counts(c->op))
            numbers_bound(c, &r);
    }
    if (counts(c->op) && c->count != 0)
        new_reader(c, &r);
    side_calls(1);
    if (takes_tree(c->op))
        as_read(c, r.refusal);
    if (takes_words(c->op))
        judged(c, r.refusal);
    if (r.refusal == 0 && c->op == SOLUTION)
        flat_already(c, walk_parameters(kept_words, r.n), r.n);
    if (r.refusal == 0 && c->op == FLATTEN)
        flat_already(c, 0, r.n);
    if (r.refusal == 0 && c->op == EXPRESSION)
        can_be_flattened(c, r.n);
    side_calls(0);
}
