// For valgrind: calls on slices of malloc that hold no words yet, and the answers used afterwards.
#include "robust.h"
#include <inttypes.h>
#include <stdio.h>
#include <stdlib.h>
#include <string.h>

#if __has_include(<valgrind/memcheck.h>)
#include <valgrind/memcheck.h>
#define DEFINED(at, size) VALGRIND_CHECK_MEM_IS_DEFINED(at, size)
#define ERRORS VALGRIND_COUNT_ERRORS
#define RUNNING RUNNING_ON_VALGRIND
#else
#define DEFINED(at, size) ((void)(at), (void)(size), 0)
#define ERRORS 0
#define RUNNING 0
#endif

static u64 made, accepted;

static void *lent(size_t size)
{
    void *p = malloc(size);
    if (!p)
        exit(2);
    return p;
}

static void defined(const struct call *c, const void *at, size_t size, const char *what)
{
    if (DEFINED(at, size) != 0)
        fail(c, "not all of the %s is written", what);
}

static void all_zero(const struct call *c, const u32 *slice, size_t size, const char *what)
{
    const u8 *bytes = (const u8 *)slice;
    defined(c, bytes, size, what);
    for (size_t i = 0; i < size; i++)
        if (bytes[i] != 0)
            fail(c, "the %s is not zero", what);
}

// The answer is left in `answer`, of so many words of room.
static struct reply plain_call(const struct call *c, u32 *answer, size_t room)
{
    size_t size = element(c->op);
    u8 *input = lent(c->len), *text = lent(LENT_TEXT);
    u32 *tree = lent(c->tree * 4), *draft = lent(c->draft * 4), *out = lent(c->out * size);
    u64 *a = lent(8), *b = lent(8), *after = lent(8);
    memcpy(input, c->bytes, c->len);
    memcpy(text, lent_text, LENT_TEXT);
    unsigned long errors = ERRORS;
    u32 refusal = raw_call(c, input, text, tree, draft, out, a, b, after);
    if (ERRORS != errors)
        fail(c, "valgrind has found an error");
    defined(c, &refusal, 4, "refusal");
    defined(c, a, 8, "first number");
    if (reports_two(c->op))
        defined(c, b, 8, "second number");
    if (counts(c->op))
        defined(c, after, 8, "count");
    struct reply r = {refusal, *a, reports_two(c->op) ? *b : 0, counts(c->op) ? *after : c->count, answer, 0};
    if (takes_tree(c->op))
        all_zero(c, tree, c->tree * 4, "tree");
    if (c->op == SOLUTION)
        all_zero(c, draft, c->draft * 4, "draft");
    made++;
    if (refusal != 0) {
        all_zero(c, out, c->out * size, "output");
    } else {
        accepted++;
        r.n = (size_t)(c->op == READ_ALL ? r.b : r.a);
        if (r.n > c->out || r.n > room)
            fail(c, "accepted with %zu elements", r.n);
        defined(c, out, r.n * size, "answer");
        memcpy(answer, out, r.n * size);
    }
    if (memcmp(input, c->bytes, c->len) != 0 || memcmp(text, lent_text, LENT_TEXT) != 0)
        fail(c, "the input is changed");
    free(input), free(text), free(tree), free(draft), free(out), free(a), free(b), free(after);
    return r;
}

void mode_memory(u64 random_calls)
{
    static u32 answer[WORDS_ROOM];
    static u8 input[8192];
    for (size_t i = 0; i < seed_count; i++) {
        const struct reply *s = &seeds[i].answer;
        struct reply r = plain_call(&seeds[i].call, answer, WORDS_ROOM);
        if (r.refusal != s->refusal || r.a != s->a || r.b != s->b || r.n != s->n || memcmp(r.words, s->words, s->n * 4) != 0)
            fail(&seeds[i].call, "another answer is recorded");
    }
    seed_random(7);
    for (u64 i = 0; i < random_calls; i++) {
        enum op op = (enum op)(i % OPS);
        size_t len = grow_input(op, input, 1024, 1024);
        struct call c = roomy(op, input, len);
        c.count = counts(op) ? grow_count(0) : 0;
        struct reply r = plain_call(&c, answer, WORDS_ROOM);
        if (r.refusal != 0 && below(2))
            continue;
        c.out = grow_length(r.n);
        c.draft = grow_length(r.n);
        c.tree = below(2) ? c.tree : grow_length(c.tree / 2);
        plain_call(&c, answer, WORDS_ROOM);
    }
    printf("robust: memory: %zu recorded cases and random ones, %" PRIu64 " calls, %" PRIu64 " accepted, %s: no misbehaviour\n",
           seed_count, made, accepted, RUNNING ? "under valgrind, slices lent uninitialised" : "not under valgrind");
}
