// What the robustness tests share: the library's functions, a call with its slices, and the parts of the test program.
#ifndef ROBUST_H
#define ROBUST_H

#include "../include/pinhkray.h"
#include <stddef.h>
#include <stdint.h>

typedef uint8_t u8;
typedef uint32_t u32;
typedef uint64_t u64;

enum op { READ_ONE, READ_ALL, SORT, EXPRESSION, BIND, SOLUTION, FLATTEN, SMTLIB, OPS };
extern const char *const op_names[OPS];
extern const char op_letters[OPS + 1];

#define MAX_TEXT PINHKRAY_MAX_BYTES
#define TEXT_ROOM (4 * WORDS_ROOM) // bytes of the longest input: a text, or words
#define WORDS_ROOM 786432 // words of the longest slice

// An operation, its input (for flatten and smtlib the bytes of words), the lengths of the slices in elements, and the count of the reader.
// Smtlib is lent the same text of LENT_TEXT bytes with all words.
struct call {
    enum op op;
    const u8 *bytes;
    size_t len;
    size_t tree, draft, out;
    u64 count;
};

// What came back; `words` is the answer in the output slice, `n` elements of it, until the next call.
struct reply {
    u32 refusal;
    u64 a, b, count;
    const u32 *words;
    size_t n;
};

// The call itself, on any slices. Numbers that the operation does not report stay as they are.
u32 raw_call(const struct call *c, const u8 *input, const u8 *text, u32 *tree, u32 *draft, u32 *out, u64 *a, u64 *b, u64 *after);
int takes_tree(enum op op);
int takes_words(enum op op);
size_t element(enum op op); // bytes of an element of the output
int reports_two(enum op op);
int counts(enum op op);

// lend.c: calls on slices that end (side 0) or begin (side 1) at an unreadable page.
void lend_init(void);
struct reply lend_call(const struct call *c, int side);
extern u64 calls_made;
_Noreturn void fail(const struct call *c, const char *format, ...);
void show_call(const struct call *c);
extern int fail_status; // with which fail ends the program
extern const struct call *volatile current; // the call that is being made, for the signal handler

// walk.c: words as document 01 lays them out. 0, or the refusal that flatten should give.
struct fresh {
    u32 at;
    u32 binds;
};
extern struct fresh walk_fresh[];
extern size_t walk_freshes;
extern int walk_learning; // whether shapes of answers are noted
extern u64 walk_new; // those that were met for the first time
u32 walk_expression(const u32 *words, size_t n);
u32 walk_solution(const u32 *words, size_t n, u64 text);
size_t walk_parameters(const u32 *words, size_t n);
u32 walk_answer(const struct call *c, const struct reply *r);

// check.c: everything that is held against one input.
void check_input(const struct call *c);
struct call roomy(enum op op, const u8 *bytes, size_t len);
#define REFUSALS 18
extern u64 accepted_inputs, refused_inputs[REFUSALS];
extern size_t needed_words, needed_tree; // of the last input: its answer's and its tree's words, 0 if refused

// grow.c: random numbers, texts and words.
void seed_random(u64 seed);
u64 random_u64(void);
size_t below(size_t n);
size_t grow_words(u32 *to, size_t room);
size_t grow_input(enum op op, u8 *to, size_t texts, size_t words); // a text of at most so many bytes, or so many words
#define LENT_TEXT 153
extern const u8 lent_text[LENT_TEXT + 1]; // the text that is lent with words
u64 grow_count(u64 need);
size_t grow_length(size_t need);
extern const char *const dictionary[];
extern const size_t dictionary_size;

// seeds.c: the recorded cases.
struct seed {
    struct call call;
    struct reply answer;
};
extern struct seed *seeds;
extern size_t seed_count;
void load_seeds(const char *path);

// mutate.c
size_t mutate_text(u8 *text, size_t len, size_t room, const u8 *other, size_t other_len);
size_t mutate_words(u32 *words, size_t n, size_t room, const u32 *other, size_t other_n);

// blocks.c: which basic blocks of the library an operation has run.
void blocks_load(const char *disassembly);
void blocks_arm(enum op op);
void blocks_show(enum op op);
void side_calls(int on); // calls for checks only: their blocks are not counted
extern volatile u64 blocks_seen;
extern u64 blocks_all;
extern u64 blocks_jumps[], blocks_turns[]; // the conditional jumps; the calls and returns
extern size_t blocks_jump_count, blocks_turn_count;
int blocks_inside(u64 address);
void blocks_stop(u64 at); // sets a breakpoint
u8 blocks_byte(u64 at); // what stood where a breakpoint stands; 0 if there is none

// extreme.c: the deepest and longest texts and words.
struct extreme {
    const char *name;
    u8 *bytes;
    size_t len;
    enum { TEXT, EXPRESSION_WORDS, SOLUTION_WORDS } form;
};
int extreme_for(const struct extreme *e, enum op op);
extern struct extreme extremes[];
extern size_t extreme_count;
void make_extremes(void);

// deepest.c: prints for each operation the input on which a measure is largest: a made one, a recorded one, or one found by so many changes.
typedef size_t measure(const struct call *c, u32 *refusal);
void deepest(u64 tries, measure *by, const char *mode, const char *unit);

// The modes.
void mode_replay(void);
void mode_memory(u64 random_calls);
void mode_fuzz(enum op op, u64 seconds, u64 seed, const char *disassembly);
void mode_soak(u64 texts);
void mode_stack(u64 tries);
void mode_frames(u64 tries, const char *disassembly);
void mode_teeth(u64 changes, u64 seed, const char *disassembly);

#endif
