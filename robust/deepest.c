// The input on which a measure of an operation is largest: the extremes, the recorded cases, and changes of the short extremes, going on from what
// is larger.
#include "robust.h"
#include <stdio.h>
#include <string.h>

struct largest {
    size_t of_all, of_accepted, least, accepted;
    const char *all_on, *accepted_on;
};

static void note(struct largest *l, measure *by, const struct call *c, const char *on)
{
    u32 refusal;
    size_t found = by(c, &refusal);
    if (found > l->of_all) {
        l->of_all = found;
        l->all_on = on;
    }
    if (refusal == 0 && found > l->of_accepted) {
        l->of_accepted = found;
        l->accepted_on = on;
    }
    l->least = found < l->least ? found : l->least;
    l->accepted += refusal == 0;
}

static void change(enum op op, u64 tries, measure *by, struct largest *l)
{
    static u8 input[8192], best[8192];
    size_t best_len = 0;
    for (u64 i = 0; i < tries;) {
        const struct extreme *e = &extremes[below(extreme_count)], *other = &extremes[below(extreme_count)];
        if (!extreme_for(e, op) || !extreme_for(other, op) || e->len > 4096 || other->len > 4096)
            continue;
        i++;
        int on = best_len > 0 && below(2);
        size_t len = on ? best_len : e->len;
        memcpy(input, on ? best : e->bytes, len);
        if (takes_words(op))
            len = 4 * mutate_words((u32 *)(void *)input, len / 4, sizeof input / 4, (u32 *)(void *)other->bytes, other->len / 4);
        else
            len = mutate_text(input, len, sizeof input, other->bytes, other->len);
        struct call c = roomy(op, input, len);
        size_t before = l->of_all;
        note(l, by, &c, "found by changes");
        if (l->of_all > before) {
            memcpy(best, input, len);
            best_len = len;
        }
    }
}

void deepest(u64 tries, measure *by, const char *mode, const char *unit)
{
    make_extremes();
    seed_random(3);
    for (int op = 0; op < OPS; op++) {
        struct largest l = {0, 0, SIZE_MAX, 0, "", ""};
        size_t made = 0, recorded = 0;
        for (size_t i = 0; i < extreme_count; i++)
            if (extreme_for(&extremes[i], (enum op)op)) {
                struct call c = roomy((enum op)op, extremes[i].bytes, extremes[i].len);
                note(&l, by, &c, extremes[i].name);
                made++;
            }
        for (size_t i = 0; i < seed_count; i++)
            if (seeds[i].call.op == (enum op)op) {
                note(&l, by, &seeds[i].call, "a recorded case");
                recorded++;
            }
        size_t before = l.of_all, accepted = l.accepted;
        change((enum op)op, tries, by, &l);
        printf("robust: %s %s: %zu %s at most (%s), %zu when accepted (%s), %zu at least; %zu made inputs and %zu recorded ones, %zu accepted, at most %zu\n", mode,
               op_names[op], l.of_all, unit, l.all_on, l.of_accepted, l.accepted_on, l.least, made, recorded, accepted, before);
    }
}
