// Many texts through one reader, the count passed on, all operations mixed: the memory stays as it is, and the count is what was bound.
#include "robust.h"
#include <inttypes.h>
#include <stdio.h>
#include <stdlib.h>
#include <string.h>

static u64 resident(void)
{
    char line[256];
    u64 size = 0;
    FILE *file = fopen("/proc/self/status", "r");
    while (file && fgets(line, sizeof line, file))
        if (sscanf(line, "VmRSS: %" SCNu64, &size) == 1)
            break;
    if (file)
        fclose(file);
    return size;
}

static u64 bound_in(const struct call *c, const struct reply *r)
{
    u64 bound = 0;
    if (walk_answer(c, r) != 0)
        fail(c, "the words are no answer of this operation");
    for (size_t i = 0; i < walk_freshes; i++)
        bound += walk_fresh[i].binds;
    return bound;
}

static u64 run(u64 texts, u64 *count, u64 *accepted)
{
    static u8 input[1024];
    u64 bound = 0;
    for (u64 i = 0; i < texts; i++) {
        enum op op = i % 4 == 0 ? (enum op)below(OPS) : i % 4 == 1 ? BIND : i % 4 == 2 ? EXPRESSION : SOLUTION;
        size_t len = grow_input(op, input, sizeof input, 256);
        struct call c = roomy(op, input, len);
        c.count = *count;
        struct reply r = lend_call(&c, (int)below(2));
        if (r.refusal == 0) {
            *accepted += 1;
            if (counts(op))
                bound += bound_in(&c, &r);
        }
        *count = r.count;
    }
    return bound;
}

void mode_soak(u64 texts)
{
    seed_random(11);
    // Texts of the longest kind first, so that every page of the rooms is in use before the memory is measured.
    static u8 blank[MAX_TEXT];
    memset(blank, ' ', sizeof blank);
    for (int op = 0; op < OPS; op++)
        for (int side = 0; side < 2; side++) {
            struct call c = roomy((enum op)op, blank, sizeof blank);
            lend_call(&c, side);
        }
    u64 first = texts / 50, count = 0, accepted = 0, bound = run(first, &count, &accepted);
    u64 start = resident();
    bound += run(texts - first, &count, &accepted);
    u64 end = resident();
    printf("robust: soak: %" PRIu64 " texts through one reader, %" PRIu64 " accepted; count %" PRIu64 ", bound %" PRIu64 "; VmRSS %" PRIu64
           " kB after %" PRIu64 " texts, %" PRIu64 " kB at the end\n", texts, accepted, count, bound, start, first, end);
    if (count != bound || end > start + 64) {
        printf("robust: soak: failed\n");
        exit(1);
    }
}
