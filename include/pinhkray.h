/* A proved reader of solver solutions: the functions of the static library, libpinhkray.a.
 *
 * Each function but pinhkray_version returns a refusal's number, 0 (PINHKRAY_ACCEPTED) if it accepts. An accepted call
 * writes its words, or its bytes where `out` is a slice of bytes, from the start of `out` and changes no later one.
 * After a refusal all of tree, draft and out is zero, the reported numbers are 0, and `count_after` is `count`. Tree and
 * draft are working slices, and zero after every call.
 *
 * A slice passes as a pointer and a length in elements. A pointer is never NULL, not even for a length of 0, is aligned
 * for its elements, and nothing that is written overlaps anything else that is passed. Nothing more is asked: every
 * text, every word and every length has its answer. Nothing is allocated and nothing is kept from call to call, so that
 * calls may be made from several threads. A call needs at most 128 KiB of stack, which is tested and not proved; in
 * pinhkray_read_one and pinhkray_read_all no function calls itself, and at most 3 call frames are open at once.
 *
 * A reader is its count, the next fresh number: 0 for a new one, then the `count_after` of its last call. An accepted
 * call takes one number for each parameter of a solution, each variable of an exists and each let.
 */
#ifndef PINHKRAY_H
#define PINHKRAY_H

#include <stddef.h>
#include <stdint.h>

#ifdef __cplusplus
extern "C" {
#endif

/* The version of this header. It rises by 1 with every landing that changes what is declared here or what a function
 * answers. Compare it with pinhkray_version(): an archive of another version belongs to another header. */
#define PINHKRAY_VERSION 5

/* The limits: bytes of a text, lists of a text inside one another, expressions in words inside one another. */
#define PINHKRAY_MAX_BYTES 32768
#define PINHKRAY_MAX_LISTS 64
#define PINHKRAY_MAX_EXPRESSIONS 128

/* Slices of so many words for each byte of the text are long enough: 5 for a tree, also where it is the output of a
 * read, and 15 for a draft and for any other output. With these lengths no text is refused with PINHKRAY_NO_ROOM, which
 * is proved. */
#define PINHKRAY_TREE_WORDS 5
#define PINHKRAY_ANSWER_WORDS 15

/* See pinhkray_smtlib. */
#define PINHKRAY_TERM_BYTES 12

enum pinhkray_refusal {
    PINHKRAY_ACCEPTED = 0,
    PINHKRAY_TOO_LONG = 1,       /* the text has more than PINHKRAY_MAX_BYTES bytes */
    PINHKRAY_NOT_UTF8 = 2,       /* the text is not UTF-8 */
    PINHKRAY_ENDS_EARLY = 3,     /* the text ends before an expression or a list does */
    PINHKRAY_STRAY_CLOSE = 4,    /* a ) stands where an expression should start */
    PINHKRAY_UNCLOSED = 5,       /* a string or an @ is not closed */
    PINHKRAY_TOO_DEEP = 6,       /* too many lists or expressions stand inside one another */
    PINHKRAY_NO_ROOM = 7,        /* a lent slice has fewer words or bytes than are needed */
    PINHKRAY_MALFORMED = 8,      /* the text does not have the form that was asked for */
    PINHKRAY_DECIMAL = 9,        /* a decimal stands as an expression */
    PINHKRAY_REPEATED_NAME = 10, /* an exists or a solution binds a name twice */
    PINHKRAY_BAD_BITS = 11,      /* the digits of a lit are missing, not binary, or 2^128 and more */
    PINHKRAY_FUNC_NUMBER = 12,   /* the number of a func is outside 0 to 64 */
    PINHKRAY_NUMBERS_SPENT = 13, /* the count would exceed 2^64 - 1 */
    PINHKRAY_BAD_WORDS = 14,     /* the words are not those of one expression or solution, or a span is outside the text */
    PINHKRAY_UNWRITABLE = 15,    /* a part of the solution cannot be written in SMT-LIB */
    PINHKRAY_UNPRINTABLE = 16,   /* a name or string has |, ", a backslash or a byte outside 32 to 126 */
    PINHKRAY_WRONG_WIDTH = 17    /* a lit has more or fewer digits than its size says */
};

/* The words of an answer. A node is its kind, its fields, and the nodes inside it, in the order that is given below. A
 * span is two words: the first byte of a name or string in the text, and how many bytes it has. A fresh number is two
 * words, low then high. A boolean is 0 or 1, and n is a count.
 *
 * A tree, a sort and an expression are nodes. A bind is a span, a sort, n, and n predicates. A solution is n, n times a
 * fresh number and a sort, and an expression. The fresh numbers of a solution and of an exists are bound in the
 * expression behind them, and that of a let in the second one, not in what it stands for. */

enum pinhkray_tree_kind {
    PINHKRAY_TREE_SYMBOL = 16,  /* span */
    PINHKRAY_TREE_QUOTED = 17,  /* span, without the quotes */
    PINHKRAY_TREE_INTEGER = 18, /* four words, lowest first, in two's complement */
    PINHKRAY_TREE_DECIMAL = 19, /* span */
    PINHKRAY_TREE_BOOLEAN = 20, /* boolean */
    PINHKRAY_TREE_LIST = 21     /* n, how many words the items have, n trees */
};

enum pinhkray_sort_kind {
    PINHKRAY_SORT_INT = 1,
    PINHKRAY_SORT_BOOL = 2,
    PINHKRAY_SORT_REAL = 3,
    PINHKRAY_SORT_STR = 4,
    PINHKRAY_SORT_BITVEC = 5,  /* the width, a sort */
    PINHKRAY_SORT_BV_SIZE = 6, /* the width, a word */
    PINHKRAY_SORT_VAR = 7,     /* index: two words, low then high */
    PINHKRAY_SORT_FUNC = 8,    /* input, output */
    PINHKRAY_SORT_ABS = 9,     /* index: a word; sort */
    PINHKRAY_SORT_APP = 10     /* constructor, behind PINHKRAY_CTOR_DATA a span; n, n sorts */
};

enum pinhkray_sort_constructor {
    PINHKRAY_CTOR_SET = 0,
    PINHKRAY_CTOR_MAP = 1,
    PINHKRAY_CTOR_DATA = 2 /* span, the name */
};

enum pinhkray_expression_kind {
    PINHKRAY_EXPR_NUMERAL = 32,      /* four words, lowest first */
    PINHKRAY_EXPR_BOOLEAN = 33,      /* boolean */
    PINHKRAY_EXPR_STRING = 34,       /* span, without the quotes */
    PINHKRAY_EXPR_BITVEC = 35,       /* the value, four words, lowest first; the width, a word */
    PINHKRAY_EXPR_FRESH = 36,        /* fresh number, of a variable that a solution, an exists or a let binds */
    PINHKRAY_EXPR_VAR = 37,          /* span, of a variable that nothing binds */
    PINHKRAY_EXPR_APP = 38,          /* 1 if it gives an output sort, else 0; n, n arguments, that sort, the head */
    PINHKRAY_EXPR_NEG = 39,          /* expression */
    PINHKRAY_EXPR_BINARY_OP = 40,    /* operator, two expressions */
    PINHKRAY_EXPR_IF_THEN_ELSE = 41, /* three expressions */
    PINHKRAY_EXPR_AND = 42,          /* n, n expressions */
    PINHKRAY_EXPR_OR = 43,           /* n, n expressions */
    PINHKRAY_EXPR_NOT = 44,          /* expression */
    PINHKRAY_EXPR_IMP = 45,          /* two expressions */
    PINHKRAY_EXPR_IFF = 46,          /* two expressions */
    PINHKRAY_EXPR_ATOM = 47,         /* relation, two expressions */
    PINHKRAY_EXPR_LET = 48,          /* span, what it stands for, the expression where it does; no text is read as one */
    PINHKRAY_EXPR_THY_FUNC = 49,     /* theory function */
    PINHKRAY_EXPR_IS_CTOR = 50,      /* span, of the constructor; expression */
    PINHKRAY_EXPR_EXISTS = 51,       /* n, n times a fresh number and a sort; expression */
    PINHKRAY_EXPR_LET_FRESH = 52     /* fresh number, what it stands for, the expression where it does */
};

enum pinhkray_operator {
    PINHKRAY_OP_ADD = 0,
    PINHKRAY_OP_SUB = 1,
    PINHKRAY_OP_MUL = 2,
    PINHKRAY_OP_DIV = 3,
    PINHKRAY_OP_MOD = 4
};

enum pinhkray_relation {
    PINHKRAY_REL_EQ = 0,
    PINHKRAY_REL_NE = 1,
    PINHKRAY_REL_GT = 2,
    PINHKRAY_REL_GE = 3,
    PINHKRAY_REL_LT = 4,
    PINHKRAY_REL_LE = 5
};

/* By their spelling in a text, such as strLen, bvule or Set_cup. Two are spelled arr_select_m and arr_store_m, too:
 * Map_select and Map_store. */
enum pinhkray_theory_function {
    PINHKRAY_THY_STR_LEN = 0,
    PINHKRAY_THY_INT_TO_BV8 = 1,
    PINHKRAY_THY_BV8_TO_INT = 2,
    PINHKRAY_THY_INT_TO_BV32 = 3,
    PINHKRAY_THY_BV32_TO_INT = 4,
    PINHKRAY_THY_INT_TO_BV64 = 5,
    PINHKRAY_THY_BV64_TO_INT = 6,
    PINHKRAY_THY_INT_TO_BV128 = 7,
    PINHKRAY_THY_BV128_TO_INT = 8,
    PINHKRAY_THY_BVULE = 9,
    PINHKRAY_THY_BVSLE = 10,
    PINHKRAY_THY_BVUGE = 11,
    PINHKRAY_THY_BVSGE = 12,
    PINHKRAY_THY_BVUGT = 13,
    PINHKRAY_THY_BVSGT = 14,
    PINHKRAY_THY_BVULT = 15,
    PINHKRAY_THY_BVSLT = 16,
    PINHKRAY_THY_BVUDIV = 17,
    PINHKRAY_THY_BVSDIV = 18,
    PINHKRAY_THY_BVUREM = 19,
    PINHKRAY_THY_BVSREM = 20,
    PINHKRAY_THY_BVLSHR = 21,
    PINHKRAY_THY_BVASHR = 22,
    PINHKRAY_THY_BVAND = 23,
    PINHKRAY_THY_BVOR = 24,
    PINHKRAY_THY_BVXOR = 25,
    PINHKRAY_THY_BVNOT = 26,
    PINHKRAY_THY_BVADD = 27,
    PINHKRAY_THY_BVNEG = 28,
    PINHKRAY_THY_BVSUB = 29,
    PINHKRAY_THY_BVMUL = 30,
    PINHKRAY_THY_BVSHL = 31,
    PINHKRAY_THY_SET_EMPTY = 32,
    PINHKRAY_THY_SET_SNG = 33,
    PINHKRAY_THY_SET_CUP = 34,
    PINHKRAY_THY_SET_CAP = 35,
    PINHKRAY_THY_SET_DIF = 36,
    PINHKRAY_THY_SET_MEM = 37,
    PINHKRAY_THY_SET_SUB = 38,
    PINHKRAY_THY_MAP_DEFAULT = 39,
    PINHKRAY_THY_MAP_SELECT = 40,
    PINHKRAY_THY_MAP_STORE = 41
};

enum pinhkray_predicate_kind {
    PINHKRAY_PREDICATE_KVAR = 64, /* span, of the name with its $; n, n times PINHKRAY_EXPR_VAR and its span */
    PINHKRAY_PREDICATE_EXPR = 65  /* expression */
};

/* Reads the first expression of a text as a tree: how many words it has, and the byte behind it. */
uint32_t pinhkray_read_one(const uint8_t *text, size_t text_len, uint32_t *out, size_t out_len, uint64_t *words,
                           uint64_t *next_byte);

/* Reads all expressions of a text as trees: how many there are, and how many words they have. */
uint32_t pinhkray_read_all(const uint8_t *text, size_t text_len, uint32_t *out, size_t out_len, uint64_t *expressions,
                           uint64_t *words);

/* The sort that a text begins with: how many words it has. */
uint32_t pinhkray_sort(const uint8_t *text, size_t text_len, uint32_t *tree, size_t tree_len, uint32_t *out,
                       size_t out_len, uint64_t *words);

/* The expression that a text begins with, not flattened: how many words it has, and the reader's count afterwards. */
uint32_t pinhkray_expression(const uint8_t *text, size_t text_len, uint32_t *tree, size_t tree_len, uint32_t *out,
                             size_t out_len, uint64_t count, uint64_t *words, uint64_t *count_after);

/* The bind that a text begins with, a name, its sort and predicates: words and count as for an expression. */
uint32_t pinhkray_bind(const uint8_t *text, size_t text_len, uint32_t *tree, size_t tree_len, uint32_t *out,
                       size_t out_len, uint64_t count, uint64_t *words, uint64_t *count_after);

/* The solution that a text begins with, flattened: words and count as for an expression. The draft takes the body
 * before flattening. */
uint32_t pinhkray_solution(const uint8_t *text, size_t text_len, uint32_t *tree, size_t tree_len, uint32_t *draft,
                           size_t draft_len, uint32_t *out, size_t out_len, uint64_t count, uint64_t *words,
                           uint64_t *count_after);

/* Flattens the words of one expression, which are not changed: how many words there are then, never more than before. */
uint32_t pinhkray_flatten(const uint32_t *words_in, size_t words_in_len, uint32_t *out, size_t out_len,
                          uint64_t *words);

/* Writes the words of one solution, which are not changed, for a reader of SMT-LIB 2.6: the list of sorted variables, a
 * space, and the term, without a zero byte behind them; how many bytes that is. The text is the one that the words were
 * read from, which their spans point into. A slice of PINHKRAY_TERM_BYTES bytes for each word, and as many again as the
 * text has, is long enough for a solution that was read from this text, which is tested and not proved. */
uint32_t pinhkray_smtlib(const uint32_t *words, size_t words_len, const uint8_t *text, size_t text_len, uint8_t *out,
                         size_t out_len, uint64_t *bytes);

/* The version of the archive, as PINHKRAY_VERSION is that of the header. An archive of version 1 has no such function. */
uint32_t pinhkray_version(void);

#ifdef __cplusplus
}
#endif

#endif
