// The recorded cases, one a line: OP START TREE DRAFT OUT INPUT = REFUSAL A B COUNT WORDS.
#include "robust.h"
#include <inttypes.h>
#include <stdio.h>
#include <stdlib.h>
#include <string.h>

struct seed *seeds;
size_t seed_count;

static void bad(const char *what)
{
    printf("robust: a recorded case has a bad %s\n", what);
    exit(2);
}

static void *grown(void *old, size_t size)
{
    void *new = realloc(old, size + 1);
    if (!new)
        exit(2);
    return new;
}

// Parts of two hexadecimal digits a byte, joined by `.`, each perhaps so many times.
static u8 *bytes_of(char *field, size_t *len)
{
    u8 *all = grown(0, 0);
    *len = 0;
    if (strcmp(field, "-") == 0)
        return all;
    char *save;
    for (char *part = strtok_r(field, ".", &save); part; part = strtok_r(0, ".", &save)) {
        char *star = strchr(part, '*');
        size_t times = star ? strtoul(star + 1, 0, 10) : 1, digits = star ? (size_t)(star - part) : strlen(part);
        u8 *one = grown(0, digits / 2);
        for (size_t i = 0; i < digits / 2; i++) {
            unsigned byte;
            if (sscanf(part + 2 * i, "%2x", &byte) != 1)
                bad("byte");
            one[i] = (u8)byte;
        }
        all = grown(all, *len + times * (digits / 2));
        for (; times > 0; times--, *len += digits / 2)
            memcpy(all + *len, one, digits / 2);
        free(one);
    }
    return all;
}

// Hexadecimal words joined by `,`, each perhaps so many times.
static u32 *words_of(char *field, size_t *n)
{
    u32 *all = grown(0, 0);
    *n = 0;
    if (strcmp(field, "-") == 0)
        return all;
    char *save;
    for (char *part = strtok_r(field, ",", &save); part; part = strtok_r(0, ",", &save)) {
        char *star = strchr(part, '*');
        size_t times = star ? strtoul(star + 1, 0, 10) : 1;
        u32 word = (u32)strtoul(part, 0, 16);
        all = grown(all, (*n + times) * 4);
        for (; times > 0; times--)
            all[(*n)++] = word;
    }
    return all;
}

static void add(char *line)
{
    char *fields[12], *save;
    int n = 0;
    for (char *f = strtok_r(line, " \n", &save); f && n < 12; f = strtok_r(0, " \n", &save))
        fields[n++] = f;
    if (n != 12)
        bad("line");
    const char *letter = strchr(op_letters, fields[0][0]);
    if (!letter)
        bad("operation");
    seeds = grown(seeds, (seed_count + 1) * sizeof *seeds);
    struct seed *s = &seeds[seed_count++];
    memset(s, 0, sizeof *s);
    s->call.op = (enum op)(letter - op_letters);
    s->call.count = strtoull(fields[1], 0, 10);
    s->call.tree = strtoul(fields[2], 0, 10);
    s->call.draft = strtoul(fields[3], 0, 10);
    s->call.out = strtoul(fields[4], 0, 10);
    if (s->call.op == FLATTEN) {
        s->call.bytes = (u8 *)words_of(fields[5], &s->call.len);
        s->call.len *= 4;
    } else {
        s->call.bytes = bytes_of(fields[5], &s->call.len);
    }
    s->answer.refusal = (u32)strtoul(fields[7], 0, 10);
    s->answer.a = strtoull(fields[8], 0, 10);
    s->answer.b = strtoull(fields[9], 0, 10);
    s->answer.count = strtoull(fields[10], 0, 10);
    s->answer.words = words_of(fields[11], &s->answer.n);
}

void load_seeds(const char *path)
{
    FILE *file = fopen(path, "r");
    if (!file) {
        printf("robust: no recorded cases at %s\n", path);
        return;
    }
    char *line = 0;
    size_t room = 0;
    while (getline(&line, &room, file) > 0)
        add(line);
    free(line);
    fclose(file);
}

// Slices of no elements at the null address, where a case lends such: the reply is the recorded one. How many cases there were.
static size_t null_slices(void)
{
    static u32 tree[WORDS_ROOM], draft[WORDS_ROOM], out[WORDS_ROOM];
    size_t cases = 0;
    for (size_t i = 0; i < seed_count; i++) {
        const struct call *c = &seeds[i].call;
        if (c->len != 0 && c->out != 0 && (!takes_tree(c->op) || c->tree != 0) && (c->op != SOLUTION || c->draft != 0))
            continue;
        u64 a = 0, b = 0, after = c->count;
        current = c;
        u32 refusal = raw_call(c, c->len ? c->bytes : 0, lent_text, c->tree ? tree : 0, c->draft ? draft : 0, c->out ? out : 0, &a, &b, &after);
        current = 0;
        const struct reply *r = &seeds[i].answer;
        if (refusal != r->refusal || a != r->a || b != r->b || after != r->count)
            fail(c, "with null slices the refusal is %" PRIu32, refusal);
        cases++;
    }
    return cases;
}

// One name read as an expression: a theory function, or a variable if the number is below 0.
static void name_read(const char *name, int number)
{
    struct call c = roomy(EXPRESSION, (const u8 *)name, strlen(name));
    struct reply r = lend_call(&c, 0);
    int function = r.refusal == 0 && r.n == 2 && r.words[0] == 49, variable = r.refusal == 0 && r.n == 3 && r.words[0] == 37;
    if (number >= 0 ? !function || r.words[1] != (u32)number : !variable)
        fail(&c, "the name is read as something else");
}

// The 44 names of the 42 theory functions, and each with a byte changed, one fewer and one more.
static void theory_names(void)
{
    for (int k = 0; k < 44; k++) {
        char name[32];
        const char *right = dictionary[dictionary_size - 46 + (size_t)k];
        size_t len = strlen(right);
        name_read(right, k < 42 ? k : k - 2);
        for (size_t i = 0; i < len; i++) {
            strcpy(name, right);
            name[i] = '~';
            name_read(name, -1);
        }
        strcpy(name, right);
        strcat(name, "~");
        name_read(name, -1);
        name[len - 1] = 0;
        name_read(name, -1);
    }
}

// The recorded answers, beside unreadable pages, and everything else that is held against an input.
void mode_replay(void)
{
    for (size_t i = 0; i < seed_count; i++) {
        const struct seed *s = &seeds[i];
        for (int side = 0; side < 2; side++) {
            struct reply r = lend_call(&s->call, side);
            const struct reply *a = &s->answer;
            if (r.refusal != a->refusal || r.a != a->a || r.b != a->b || r.count != a->count)
                fail(&s->call, "recorded %" PRIu32 ", and not %" PRIu32, a->refusal, r.refusal);
            if (r.n != a->n || memcmp(r.words, a->words, a->n * 4) != 0)
                fail(&s->call, "other words are recorded");
        }
        check_input(&s->call);
    }
    theory_names();
    printf("robust: replay: %zu recorded cases and the theory functions' names beside unreadable pages, %" PRIu64
           " calls, and %zu cases again with null slices of no elements: no misbehaviour\n",
           seed_count, calls_made, null_slices());
}
