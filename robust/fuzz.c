// A coverage-guided fuzzer of one operation: inputs that run new blocks, or give an answer of a new shape, are kept and changed further.
#include "robust.h"
#include <inttypes.h>
#include <stdio.h>
#include <stdlib.h>
#include <string.h>
#include <time.h>

#define MOST 8192 // inputs kept
#define SHORT 1024 // bytes of most inputs; words are four times as long

static struct { u8 *bytes; size_t len; } corpus[MOST];
static size_t kept;
static u8 outcomes[REFUSALS][32];
static u8 input[TEXT_ROOM];
static u64 inputs;

static void keep(const u8 *bytes, size_t len)
{
    size_t i = kept < MOST ? kept++ : below(MOST);
    free(corpus[i].bytes);
    corpus[i].bytes = malloc(len + 1);
    memcpy(corpus[i].bytes, bytes, len);
    corpus[i].len = len;
}

// A refusal with a length of about this was not met before.
static int new_outcome(u64 before[REFUSALS], size_t len)
{
    int size = 0, found = 0;
    while (size < 31 && len >> size)
        size++;
    for (int r = 0; r < REFUSALS; r++)
        if (refused_inputs[r] != before[r] && !outcomes[r][size]) {
            outcomes[r][size] = 1;
            found = 1;
        }
    return found;
}

// The input with slices long enough, then with lengths round what it needs and another count.
static void try(enum op op, size_t len)
{
    u64 before[REFUSALS], blocks = blocks_seen, shapes = walk_new;
    memcpy(before, refused_inputs, sizeof before);
    struct call c = roomy(op, input, len);
    c.count = counts(op) ? grow_count(0) : 0;
    check_input(&c);
    inputs++;
    if (below(2)) {
        c.tree = grow_length(needed_tree);
        c.out = grow_length(needed_words);
        c.draft = below(2) ? c.draft : grow_length(needed_words);
        c.count = counts(op) ? grow_count(below(4)) : 0;
        check_input(&c);
        inputs++;
    }
    if (blocks_seen != blocks || walk_new != shapes || new_outcome(before, len))
        keep(input, len);
}

// One of the inputs kept, rather a late one, and seldom a long one.
static size_t chosen(void)
{
    for (;;) {
        size_t e = below(3) ? below(kept) : kept - 1 - below(kept < 64 ? kept : 64);
        if (corpus[e].len <= 4 * SHORT || below(256) == 0)
            return e;
    }
}

static size_t changed(enum op op)
{
    size_t e = chosen(), other = chosen();
    size_t least = takes_words(op) ? 4 * SHORT : SHORT, room = corpus[e].len > least ? corpus[e].len : least;
    memcpy(input, corpus[e].bytes, corpus[e].len);
    if (takes_words(op))
        return 4 * mutate_words((u32 *)(void *)input, corpus[e].len / 4, room / 4,
                                (const u32 *)(const void *)corpus[other].bytes, corpus[other].len / 4);
    return mutate_text(input, corpus[e].len, room, corpus[other].bytes, corpus[other].len);
}

// About as long as a text may be: an input again and again, in a list or behind white space.
static size_t long_text(void)
{
    size_t e = below(kept), end = MAX_TEXT - 3 + below(6), at = 0;
    const char *before = below(2) ? "(lambda ((x Int)) (and " : below(2) ? "(and " : "";
    at = strlen(before);
    memcpy(input, before, at);
    if (below(2)) {
        memset(input + at, ' ', end);
        at = end - below(64);
    }
    while (corpus[e].len > 0 && at + corpus[e].len + 1 < end) {
        memcpy(input + at, corpus[e].bytes, corpus[e].len);
        at += corpus[e].len;
        input[at++] = ' ';
    }
    while (at < end)
        input[at++] = below(64) ? ')' : (u8)random_u64();
    return end;
}

// Seconds of the processor's time.
static u64 spent(void)
{
    struct timespec now;
    clock_gettime(CLOCK_PROCESS_CPUTIME_ID, &now);
    return (u64)now.tv_sec;
}

// An input to begin with.
static void first(enum op op, const u8 *bytes, size_t len)
{
    if (len > TEXT_ROOM)
        return;
    memcpy(input, bytes, len);
    try(op, len);
}

// A call that does not end is found by main.c.
void mode_fuzz(enum op op, u64 seconds, u64 seed, const char *disassembly)
{
    seed_random(seed);
    walk_learning = 1;
    blocks_load(disassembly);
    blocks_arm(op);
    for (size_t i = 0; i < seed_count; i++)
        if (seeds[i].call.op == op)
            first(op, seeds[i].call.bytes, seeds[i].call.len);
    make_extremes();
    for (size_t i = 0; i < extreme_count; i++)
        if (extreme_for(&extremes[i], op))
            first(op, extremes[i].bytes, extremes[i].len);
    u64 seeded = blocks_seen;
    keep(input, 0);
    u64 start = spent(), shown = start, last_new = 0, last_seen = blocks_seen;
    while (spent() - start < seconds) {
        for (int i = 0; i < 64; i++) {
            size_t len;
            if (below(takes_words(op) ? 4 : 32) == 0)
                len = grow_input(op, input, SHORT, SHORT);
            else if (!takes_words(op) && below(4096) == 0)
                len = long_text();
            else
                len = changed(op);
            try(op, len);
        }
        if (blocks_seen != last_seen) {
            last_seen = blocks_seen;
            last_new = spent() - start;
        }
        if (spent() - shown >= 60) {
            shown = spent();
            printf("robust: fuzz %s: %" PRIu64 " s, %" PRIu64 " inputs, blocks %" PRIu64 "\n", op_names[op], shown - start, inputs, blocks_seen);
            fflush(stdout);
        }
    }
    blocks_show(op);
    printf("robust: fuzz %s: %" PRIu64 " s, seed %" PRIu64 ", %" PRIu64 " inputs, %" PRIu64 " calls, kept %zu; refusals 0 to %d:", op_names[op],
           spent() - start, seed, inputs, calls_made, kept, REFUSALS - 1);
    for (int r = 0; r < REFUSALS; r++)
        printf(" %" PRIu64, refused_inputs[r]);
    printf("\nrobust: fuzz %s: blocks %" PRIu64 " of %" PRIu64 " (%" PRIu64 " by the recorded cases and the extremes; the last new one after %" PRIu64
           " s): no misbehaviour\n", op_names[op], blocks_seen, blocks_all, seeded, last_new);
}
