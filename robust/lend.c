// Calls on lent slices that touch an unreadable page: directly behind each slice and number, or directly before it.
#define _GNU_SOURCE
#include "robust.h"
#include <inttypes.h>
#include <stdarg.h>
#include <stdio.h>
#include <stdlib.h>
#include <string.h>
#include <sys/mman.h>
#include <unistd.h>

#define PAGE 4096
#define NEAR 64 // bytes on the readable side of a slice that must stay as they are
#define MOST_WORDS (WORDS_ROOM - NEAR / 4)

const char *const op_names[OPS] = {"read_one", "read_all", "sort", "expression", "bind", "solution", "flatten", "smtlib"};
const char op_letters[OPS + 1] = "RASEBLFT";
u64 calls_made;
int fail_status = 1;
const struct call *volatile current;

// A room between two unreadable pages. The library sees it at `lent`; a text's room is read-only there and written at `own`.
struct room {
    u8 *lent, *own;
    size_t size;
};
static struct room text_room, lent_room, tree_room, draft_room, out_room, number_rooms[3];

static struct room make_room(size_t size, int read_only)
{
    struct room r = {0, 0, (size + PAGE - 1) / PAGE * PAGE};
    int file = memfd_create("room", 0);
    if (file < 0 || ftruncate(file, (off_t)r.size) != 0) {
        perror("robust: a room");
        exit(2);
    }
    u8 *space = mmap(0, r.size + 2 * PAGE, PROT_NONE, MAP_PRIVATE | MAP_ANONYMOUS, -1, 0);
    int access = read_only ? PROT_READ : PROT_READ | PROT_WRITE;
    r.lent = mmap(space + PAGE, r.size, access, MAP_SHARED | MAP_FIXED, file, 0);
    r.own = read_only ? mmap(0, r.size, PROT_READ | PROT_WRITE, MAP_SHARED, file, 0) : r.lent;
    if (space == MAP_FAILED || r.lent == MAP_FAILED || r.own == MAP_FAILED) {
        perror("robust: a room");
        exit(2);
    }
    close(file);
    return r;
}

void lend_init(void)
{
    text_room = make_room(TEXT_ROOM, 1);
    lent_room = make_room(LENT_TEXT, 1);
    tree_room = make_room(WORDS_ROOM * 4, 0);
    draft_room = make_room(WORDS_ROOM * 4, 0);
    out_room = make_room(WORDS_ROOM * 4, 0);
    for (int i = 0; i < 3; i++)
        number_rooms[i] = make_room(8, 0);
}

// Where a slice of so many bytes lies: at the end of the room, or at its beginning.
static u8 *place(const struct room *r, size_t bytes, int side)
{
    return side ? r->lent : r->lent + r->size - bytes;
}

// A byte that stands in no term, and of which no word of an answer is made by chance.
static u8 pattern(size_t i)
{
    return (u8)(0x80u | (u32)i * 2654435761u >> 24);
}

static u8 beside(size_t i)
{
    return pattern(i) ^ 0xff;
}

// Fills a slice of so many bytes and those beside it.
static u32 *fill(const struct room *r, size_t bytes, int side)
{
    u8 *s = place(r, bytes, side);
    for (size_t i = 0; i < bytes; i++)
        s[i] = pattern(i);
    u8 *near = side ? s + bytes : s - NEAR;
    for (size_t i = 0; i < NEAR; i++)
        near[i] = beside(i);
    return (u32 *)(void *)s;
}

static void near_kept(const struct call *c, const char *name, const u32 *slice, size_t bytes, int side)
{
    const u8 *s = (const u8 *)slice, *near = side ? s + bytes : s - NEAR;
    for (size_t i = 0; i < NEAR; i++)
        if (near[i] != beside(i))
            fail(c, "a byte beside the %s is changed", name);
}

static void zero(const struct call *c, const char *name, const u32 *slice, size_t bytes)
{
    const u8 *s = (const u8 *)slice;
    for (size_t i = 0; i < bytes; i++)
        if (s[i] != 0)
            fail(c, "byte %zu of the %s is not zero", i, name);
}

int takes_tree(enum op op)
{
    return op >= SORT && op <= SOLUTION;
}

int takes_words(enum op op)
{
    return op == FLATTEN || op == SMTLIB;
}

size_t element(enum op op)
{
    return op == SMTLIB ? 1 : 4;
}

int reports_two(enum op op)
{
    return op <= READ_ALL;
}

int counts(enum op op)
{
    return op >= EXPRESSION && op <= SOLUTION;
}

u32 raw_call(const struct call *c, const u8 *input, const u8 *text, u32 *tree, u32 *draft, u32 *out, u64 *a, u64 *b, u64 *after)
{
    switch (c->op) {
    case READ_ONE: return pinhkray_read_one(input, c->len, out, c->out, a, b);
    case READ_ALL: return pinhkray_read_all(input, c->len, out, c->out, a, b);
    case SORT: return pinhkray_sort(input, c->len, tree, c->tree, out, c->out, a);
    case EXPRESSION: return pinhkray_expression(input, c->len, tree, c->tree, out, c->out, c->count, a, after);
    case BIND: return pinhkray_bind(input, c->len, tree, c->tree, out, c->out, c->count, a, after);
    case SOLUTION: return pinhkray_solution(input, c->len, tree, c->tree, draft, c->draft, out, c->out, c->count, a, after);
    case FLATTEN: return pinhkray_flatten((const u32 *)(const void *)input, c->len / 4, out, c->out, a);
    case SMTLIB: return pinhkray_smtlib((const u32 *)(const void *)input, c->len / 4, text, LENT_TEXT, (u8 *)out, c->out, a);
    default: exit(2);
    }
}

// Which refusals an operation has at all, a bit for each.
static u32 possible(enum op op)
{
    switch (op) {
    case READ_ONE: return 0x00ff;
    case READ_ALL: return 0x00ff;
    case SORT: return 0x11ff;
    case FLATTEN: return 0x40c1;
    case SMTLIB: return 0x1c0c1;
    default: return 0x23fff;
    }
}

struct reply lend_call(const struct call *c, int side)
{
    int tree_lent = takes_tree(c->op), draft_lent = c->op == SOLUTION;
    size_t tree_size = c->tree * 4, draft_size = c->draft * 4, out_size = c->out * element(c->op);
    if (c->len > TEXT_ROOM || c->tree > MOST_WORDS || c->draft > MOST_WORDS || out_size > MOST_WORDS * 4)
        fail(c, "there is no room for these slices");
    size_t at = side ? 0 : text_room.size - c->len;
    memcpy(text_room.own + at, c->bytes, c->len);
    size_t named = side ? 0 : lent_room.size - LENT_TEXT;
    memcpy(lent_room.own + named, lent_text, LENT_TEXT);
    u32 *tree = tree_lent ? fill(&tree_room, tree_size, side) : 0;
    u32 *draft = draft_lent ? fill(&draft_room, draft_size, side) : 0;
    u32 *out = fill(&out_room, out_size, side);
    u64 *numbers[3];
    for (int i = 0; i < 3; i++)
        numbers[i] = (u64 *)(void *)place(&number_rooms[i], 8, side);
    *numbers[0] = *numbers[1] = UINT64_MAX;
    *numbers[2] = c->count - 1;

    current = c;
    u32 refusal = raw_call(c, text_room.lent + at, lent_room.lent + named, tree, draft, out, numbers[0], numbers[1], numbers[2]);
    current = 0;
    calls_made++;

    struct reply r = {refusal, *numbers[0], *numbers[1], *numbers[2], out, 0};
    if (refusal >= REFUSALS || !(possible(c->op) >> refusal & 1))
        fail(c, "the refusal is %" PRIu32, refusal);
    if (!reports_two(c->op)) {
        if (r.b != UINT64_MAX)
            fail(c, "a number that was not lent is written");
        r.b = 0;
    }
    if (!counts(c->op)) {
        if (r.count != c->count - 1)
            fail(c, "a count that was not lent is written");
        r.count = c->count;
    }
    if (tree_lent) {
        zero(c, "tree", tree, tree_size);
        near_kept(c, "tree", tree, tree_size, side);
    }
    if (draft_lent) {
        zero(c, "draft", draft, draft_size);
        near_kept(c, "draft", draft, draft_size, side);
    }
    near_kept(c, "output", out, out_size, side);
    if (refusal != 0) {
        zero(c, "output", out, out_size);
        if (r.a != 0 || r.b != 0 || r.count != c->count)
            fail(c, "refused %" PRIu32 " with numbers %" PRIu64 " %" PRIu64 " and count %" PRIu64, refusal, r.a, r.b, r.count);
        return r;
    }
    u64 n = c->op == READ_ALL ? r.b : r.a;
    if (n > c->out)
        fail(c, "accepted with %" PRIu64 " elements", n);
    r.n = (size_t)n;
    for (size_t i = r.n * element(c->op); i < out_size; i++)
        if (((const u8 *)out)[i] != pattern(i))
            fail(c, "byte %zu, behind the answer, is changed", i);
    if (r.count < c->count)
        fail(c, "the count falls to %" PRIu64, r.count);
    return r;
}

// A call as the recorded cases write it.
void show_call(const struct call *c)
{
    printf("%c %" PRIu64 " %zu %zu %zu ", op_letters[c->op], c->count, c->tree, c->draft, c->out);
    if (c->len == 0)
        printf("-");
    for (size_t i = 0; i < c->len && !takes_words(c->op); i++)
        printf("%02x", c->bytes[i]);
    for (size_t i = 0; i + 4 <= c->len && takes_words(c->op); i += 4) {
        u32 word;
        memcpy(&word, c->bytes + i, 4);
        printf("%s%" PRIx32, i ? "," : "", word);
    }
    printf("\n");
}

_Noreturn void fail(const struct call *c, const char *format, ...)
{
    va_list list;
    va_start(list, format);
    printf("robust: %s: ", op_names[c->op]);
    vprintf(format, list);
    printf("\nrobust: the call: ");
    show_call(c);
    va_end(list);
    exit(fail_status);
}
