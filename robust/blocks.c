// Block coverage of the library as it is built: a breakpoint on the first byte of each basic block, which goes when it is met.
#define _GNU_SOURCE
#include "robust.h"
#include <inttypes.h>
#include <signal.h>
#include <stdio.h>
#include <stdlib.h>
#include <string.h>
#include <sys/mman.h>
#include <ucontext.h>

#define SPAN 131072 // bytes of code at most
#define FUNCTIONS 256

// What stands at each byte of the library's code: the start of an instruction, of a block, a function's number.
static u8 starts[SPAN], leads[SPAN], seen[SPAN], armed[SPAN], bytes[SPAN];
static u8 of[SPAN];
static u64 low = UINT64_MAX, high;
static struct { char name[96]; u64 from; } functions[FUNCTIONS];
static u8 calls[FUNCTIONS][FUNCTIONS], reached[FUNCTIONS];
static size_t function_count;
static u64 tables[64];
static size_t table_count;
volatile u64 blocks_seen;
u64 blocks_all;
u64 blocks_jumps[4096], blocks_turns[4096];
size_t blocks_jump_count, blocks_turn_count;

static volatile int side;
static u64 met_aside[8192];
static volatile size_t aside;

int blocks_inside(u64 address)
{
    return address >= low && address < high;
}

static void on_trap(int number, siginfo_t *info, void *context)
{
    (void)number;
    (void)info;
    ucontext_t *u = context;
    u64 at = (u64)u->uc_mcontext.gregs[REG_RIP] - 1;
    if (!blocks_inside(at) || !armed[at - low])
        abort();
    *(volatile u8 *)at = bytes[at - low];
    armed[at - low] = 0;
    u->uc_mcontext.gregs[REG_RIP] = (greg_t)at;
    if (side) {
        met_aside[aside++] = at;
        return;
    }
    seen[at - low] = 1;
    blocks_seen++;
}

void blocks_stop(u64 at)
{
    bytes[at - low] = *(volatile u8 *)at;
    armed[at - low] = 1;
    *(volatile u8 *)at = 0xcc;
}

u8 blocks_byte(u64 at)
{
    return blocks_inside(at) && armed[at - low] ? bytes[at - low] : 0;
}

void side_calls(int on)
{
    side = on;
    if (!on)
        while (aside > 0)
            blocks_stop(met_aside[--aside]);
}

// A line of `objdump -d --no-show-raw-insn` that holds an instruction: "  address:\tinstruction  operands".
static int instruction(char *line, u64 *at, char **text)
{
    char *end;
    *at = strtoull(line, &end, 16);
    if (end == line || *end != ':' || end[1] != '\t')
        return 0;
    *text = end + 2;
    return 1;
}

// Names that the linker gives to other code than the library's.
static int foreign(const char *name)
{
    return strstr(name, "::") == 0 && strncmp(name, "pinhkray_", 9) != 0;
}

static u64 target(const char *text)
{
    const char *p = text + strcspn(text, " ");
    p += strspn(p, " ");
    char *end;
    u64 to = strtoull(p, &end, 16);
    return end != p && *end == ' ' ? to : 0;
}

static void flow(u64 at, const char *text, int *opens)
{
    int here = of[at - low];
    if (*opens && strncmp(text, "nop", 3) != 0)
        leads[at - low] = 1;
    *opens = 0;
    if (strncmp(text, "call", 4) == 0 || strncmp(text, "ret", 3) == 0) {
        if (blocks_turn_count == sizeof blocks_turns / sizeof blocks_turns[0])
            exit(2);
        blocks_turns[blocks_turn_count++] = at;
    }
    if (text[0] == 'j') {
        u64 to = target(text);
        *opens = strncmp(text, "jmp", 3) != 0;
        if (*opens && blocks_jump_count < 4096)
            blocks_jumps[blocks_jump_count++] = at;
        if (to && blocks_inside(to)) {
            leads[to - low] = 1;
            calls[here][of[to - low]] = 1;
        }
    } else if (strncmp(text, "call", 4) == 0) {
        u64 to = target(text);
        if (to && blocks_inside(to))
            calls[here][of[to - low]] = 1;
    } else if (strncmp(text, "lea", 3) == 0 && strstr(text, "(%rip)")) {
        const char *hash = strstr(text, "# ");
        u64 table = hash ? strtoull(hash + 2, 0, 16) : 0;
        if (table && !blocks_inside(table) && table_count < 64)
            tables[table_count++] = table;
    }
}

// A jump table holds distances from itself to starts of instructions of one function.
static void read_table(u64 table)
{
    int owner = -1;
    for (size_t i = 0; i < 512; i++) {
        for (size_t t = 0; t < table_count && i > 0; t++)
            if (tables[t] == table + 4 * i)
                return;
        int32_t distance;
        memcpy(&distance, (const void *)(table + 4 * i), 4);
        u64 to = table + (u64)(int64_t)distance;
        if (!blocks_inside(to) || !starts[to - low] || (owner >= 0 && of[to - low] != owner))
            return;
        owner = of[to - low];
        leads[to - low] = 1;
    }
}

// Three rounds: the bounds of the code, where instructions start, and where blocks do.
static void read_lines(FILE *file, int round)
{
    char *line = 0, *text, name[96];
    size_t room = 0;
    int current_function = -1, opens = 0;
    u64 at;
    rewind(file);
    size_t number = 0;
    while (getline(&line, &room, file) > 0) {
        if (sscanf(line, "%" SCNx64 " <%95[^>]>:", &at, name) == 2) {
            current_function = -1;
            opens = 0;
            if (foreign(name) || number >= FUNCTIONS)
                continue;
            current_function = (int)number++;
            if (round == 0) {
                strcpy(functions[current_function].name, name);
                functions[current_function].from = at;
                function_count = number;
            }
            low = at < low ? at : low;
        } else if (current_function >= 0 && instruction(line, &at, &text)) {
            if (round == 0)
                high = at + 16 > high ? at + 16 : high;
            if (round == 1) {
                starts[at - low] = 1;
                of[at - low] = (u8)current_function;
                leads[at - low] |= at == functions[current_function].from;
            }
            if (round == 2)
                flow(at, text, &opens);
        }
        if (round == 0 && high - low > SPAN && high > low)
            exit(2);
    }
    free(line);
}

void blocks_load(const char *disassembly)
{
    FILE *file = fopen(disassembly, "r");
    if (!file) {
        printf("robust: no disassembly at %s\n", disassembly);
        exit(2);
    }
    for (int round = 0; round < 3; round++)
        read_lines(file, round);
    fclose(file);
    for (size_t t = 0; t < table_count; t++)
        read_table(tables[t]);
    u64 page = low & ~4095ull;
    if (mprotect((void *)page, high - page, PROT_READ | PROT_WRITE | PROT_EXEC) != 0) {
        perror("robust: the code cannot be written");
        exit(2);
    }
    struct sigaction action = {0};
    action.sa_sigaction = on_trap;
    action.sa_flags = SA_SIGINFO | SA_NODEFER;
    sigaction(SIGTRAP, &action, 0);
}

static void reach(size_t f)
{
    if (reached[f])
        return;
    reached[f] = 1;
    for (size_t g = 0; g < function_count; g++)
        if (calls[f][g])
            reach(g);
}

// All blocks of the functions that the operation can reach.
void blocks_arm(enum op op)
{
    char name[96];
    snprintf(name, sizeof name, "pinhkray_%s", op_names[op]);
    for (size_t f = 0; f < function_count; f++)
        if (strcmp(functions[f].name, name) == 0)
            reach(f);
    for (u64 at = low; at < high; at++)
        if (leads[at - low] && reached[of[at - low]]) {
            blocks_stop(at);
            blocks_all++;
        }
}

// How many blocks of each function were run.
void blocks_show(enum op op)
{
    printf("robust: fuzz %s: blocks run of all, by function:\n", op_names[op]);
    for (size_t f = 0; f < function_count; f++) {
        u64 all = 0, run = 0;
        for (u64 at = low; at < high; at++)
            if (leads[at - low] && of[at - low] == f) {
                all++;
                run += seen[at - low];
            }
        if (reached[f])
            printf("robust:   %s: %" PRIu64 " of %" PRIu64, functions[f].name, run, all);
        if (reached[f] && run < all)
            for (u64 at = low; at < high; at++)
                if (leads[at - low] && of[at - low] == f && !seen[at - low])
                    printf(" -%" PRIx64, at - functions[f].from);
        if (reached[f])
            printf("\n");
    }
}
