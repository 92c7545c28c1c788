// The deepest byte of the stack that each operation writes: each call runs on a stack of its own that is painted first.
#define _GNU_SOURCE
#include "robust.h"
#include <stdio.h>
#include <stdlib.h>
#include <string.h>
#include <sys/mman.h>
#include <ucontext.h>

#define STACK (1 << 20)
#define PAINT 0xC5

static u8 *stack;
static ucontext_t caller, callee;
static const struct call *call;
static u32 *tree, *draft, *out;
static u64 numbers[3];
static u32 refusal;
static u8 *top;

static void body(void)
{
    top = __builtin_frame_address(0);
    refusal = raw_call(call, call->bytes, lent_text, tree, draft, out, &numbers[0], &numbers[1], &numbers[2]);
}

// How many bytes below the caller's frame are written. What is written is painted again.
static size_t mark(const struct call *c, u32 *refused)
{
    call = c;
    getcontext(&callee);
    callee.uc_stack.ss_sp = stack;
    callee.uc_stack.ss_size = STACK;
    callee.uc_link = &caller;
    makecontext(&callee, body, 0);
    swapcontext(&caller, &callee);
    size_t i = 0;
    u64 painted;
    memset(&painted, PAINT, 8);
    while (i < STACK && memcmp(stack + i, &painted, 8) == 0)
        i += 8;
    while (i < STACK && stack[i] == PAINT)
        i++;
    size_t depth = (size_t)(top - (stack + i));
    memset(stack + i, PAINT, STACK - i);
    *refused = refusal;
    return depth;
}

void mode_stack(u64 tries)
{
    // An unreadable page below the stack ends a run that needs more.
    u8 *space = mmap(0, STACK + 4096, PROT_READ | PROT_WRITE, MAP_PRIVATE | MAP_ANONYMOUS, -1, 0);
    if (space == MAP_FAILED || mprotect(space, 4096, PROT_NONE) != 0)
        exit(2);
    stack = space + 4096;
    memset(stack, PAINT, STACK);
    tree = malloc(WORDS_ROOM * 4);
    draft = malloc(WORDS_ROOM * 4);
    out = malloc(WORDS_ROOM * 4);
    deepest(tries, mark, "stack", "bytes");
}
