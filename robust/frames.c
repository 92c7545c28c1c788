// The most frames that each operation has open at once, counted: a breakpoint stands on each call and each return of the library's code, and what
// stood there is done by hand. A function from outside that the library calls is one frame.
#define _GNU_SOURCE
#include "robust.h"
#include <signal.h>
#include <stdio.h>
#include <stdlib.h>
#include <string.h>
#include <ucontext.h>

#define FRAMES 4096
#define CALL 0xe8 // and a distance of four bytes
#define RETURN 0xc3

static void *const entries[OPS] = {pinhkray_read_one, pinhkray_read_all, pinhkray_sort,    pinhkray_expression,
                                   pinhkray_bind,     pinhkray_solution, pinhkray_flatten, pinhkray_smtlib};

static u64 opened[FRAMES]; // where the functions begin that are open
static size_t depth, most, twice; // how many are open, the most of them, and how often one was called that was open
static u8 signal_stack[65536];

static void on_call(u64 goal)
{
    if (depth + 1 == FRAMES) {
        printf("robust: frames: more than %d frames are open\n", FRAMES - 1);
        exit(1);
    }
    most = depth + 1 > most ? depth + 1 : most;
    if (!blocks_inside(goal))
        return;
    size_t i = 0;
    while (i < depth && opened[i] != goal)
        i++;
    twice += i < depth;
    opened[depth++] = goal;
}

static void on_trap(int number, siginfo_t *info, void *context)
{
    (void)number;
    (void)info;
    greg_t *registers = ((ucontext_t *)context)->uc_mcontext.gregs;
    u64 at = (u64)registers[REG_RIP] - 1;
    u64 *stack = (u64 *)registers[REG_RSP];
    int32_t distance;
    switch (blocks_byte(at)) {
    case CALL:
        memcpy(&distance, (const void *)(at + 1), 4);
        stack[-1] = at + 5;
        registers[REG_RSP] -= 8;
        registers[REG_RIP] = (greg_t)(at + 5) + distance;
        on_call((u64)registers[REG_RIP]);
        return;
    case RETURN:
        registers[REG_RSP] += 8;
        registers[REG_RIP] = (greg_t)stack[0];
        depth--;
        return;
    default:
        abort();
    }
}

static u32 *tree, *draft, *out;

static size_t count(const struct call *c, u32 *refusal)
{
    u64 numbers[3];
    opened[0] = (u64)entries[c->op];
    depth = most = 1;
    twice = 0;
    *refusal = raw_call(c, c->bytes, lent_text, tree, draft, out, &numbers[0], &numbers[1], &numbers[2]);
    if (twice && (c->op == READ_ONE || c->op == READ_ALL)) {
        printf("robust: frames %s: a function is called while it is open\n", op_names[c->op]);
        exit(1);
    }
    return most;
}

void mode_frames(u64 tries, const char *disassembly)
{
    blocks_load(disassembly);
    stack_t other = {.ss_sp = signal_stack, .ss_size = sizeof signal_stack};
    sigaltstack(&other, 0);
    struct sigaction action = {.sa_sigaction = on_trap, .sa_flags = SA_SIGINFO | SA_ONSTACK};
    sigaction(SIGTRAP, &action, 0);
    for (size_t i = 0; i < blocks_turn_count; i++) {
        u8 byte = *(const u8 *)blocks_turns[i];
        if (byte != CALL && byte != RETURN) {
            printf("robust: frames: a call or return that begins with byte %x\n", byte);
            exit(1);
        }
        blocks_stop(blocks_turns[i]);
    }
    tree = malloc(WORDS_ROOM * 4);
    draft = malloc(WORDS_ROOM * 4);
    out = malloc(WORDS_ROOM * 4);
    deepest(tries, count, "frames", "frames");
}
