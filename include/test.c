/* The library called from C. It prints nothing and exits with 0 if every answer is the right one. */
#include <pinhkray.h>

#include <stdio.h>
#include <string.h>

#define LENGTH(array) (sizeof(array) / sizeof((array)[0]))

/* A word that no call here writes. */
#define OLD 0xdeadbeefu

static int failures = 0;

#define CHECK(holds)                                                   \
    do {                                                               \
        if (!(holds)) {                                                \
            fprintf(stderr, "%s:%d: %s\n", __FILE__, __LINE__, #holds); \
            failures++;                                                \
        }                                                              \
    } while (0)

static uint32_t tree[64], draft[64], out[64];
static uint64_t words, after;

static void fill(uint32_t *slice, size_t len, uint32_t word) {
    for (size_t i = 0; i < len; i++)
        slice[i] = word;
}

static int all(const uint32_t *slice, size_t len, uint32_t word) {
    for (size_t i = 0; i < len; i++)
        if (slice[i] != word)
            return 0;
    return 1;
}

static void age(void) {
    fill(tree, LENGTH(tree), OLD);
    fill(draft, LENGTH(draft), OLD);
    fill(out, LENGTH(out), OLD);
    words = after = OLD;
}

/* Whether the output begins with these words, reported so many, and has no other new one. */
static int wrote(const uint32_t *expected, size_t len) {
    return words == len && memcmp(out, expected, len * sizeof *out) == 0 && all(out + len, LENGTH(out) - len, OLD);
}

static const uint8_t *bytes(const char *text) {
    return (const uint8_t *)text;
}

static uint32_t solution(const char *text, uint64_t count) {
    age();
    uint32_t refusal = pinhkray_solution(bytes(text), strlen(text), tree, LENGTH(tree), draft, LENGTH(draft), out,
                                         LENGTH(out), count, &words, &after);
    CHECK(all(tree, LENGTH(tree), 0) && all(draft, LENGTH(draft), 0));
    if (refusal != PINHKRAY_ACCEPTED)
        CHECK(all(out, LENGTH(out), 0) && words == 0 && after == count);
    return refusal;
}

static void solutions(void) {
    const char *text = "(lambda ((x Int)) (< x 5))";
    const uint32_t minus_inf[] = {1, 0, 0, 1, 47, 4, 37, 23, 4, 36, 0, 0};
    const uint32_t first[] = {1, 0, 0, 1, 47, 4, 36, 0, 0, 32, 5, 0, 0, 0};
    const uint32_t second[] = {1, 1, 0, 1, 47, 4, 36, 1, 0, 32, 5, 0, 0, 0};
    const uint32_t let[] = {1, 0, 0, 1, 52, 1, 0, 32, 1, 0, 0, 0, 47, 4, 36, 1, 0, 32, 2, 0, 0, 0};
    const uint32_t own[] = {1, 0, 0, 1, 52, 1, 0, 36, 0, 0, 36, 1, 0};
    CHECK(solution(text, 0) == PINHKRAY_ACCEPTED);
    CHECK(wrote(first, LENGTH(first)) && after == 1);
    CHECK(solution(text, after) == PINHKRAY_ACCEPTED);
    CHECK(wrote(second, LENGTH(second)) && after == 2);
    CHECK(solution("(lambda ((inf Int)) (< -inf inf))", 0) == PINHKRAY_ACCEPTED);
    CHECK(wrote(minus_inf, LENGTH(minus_inf)) && after == 1);
    CHECK(solution("(lambda ((x Int)) (let (x 1) (< x 2)))", 0) == PINHKRAY_ACCEPTED);
    CHECK(wrote(let, LENGTH(let)) && after == 2);
    CHECK(solution("(lambda ((x Int)) (let (x x) x))", 0) == PINHKRAY_ACCEPTED);
    CHECK(wrote(own, LENGTH(own)) && after == 2);
    CHECK(solution("(lambda () (let (x 1) x))", UINT64_MAX) == PINHKRAY_NUMBERS_SPENT);
    CHECK(solution("(lambda ((nan Int) (nan Int)) nan)", 2) == PINHKRAY_REPEATED_NAME);
    CHECK(solution("(lambda ((x Int) (x Int)) x)", 2) == PINHKRAY_REPEATED_NAME);
    CHECK(solution("(lambda ((x Int) (x Int)) ())", 2) == PINHKRAY_MALFORMED);
    CHECK(solution(text, UINT64_MAX) == PINHKRAY_NUMBERS_SPENT);
}

/* The refusals that the other calls here do not meet. */
static void refusals(void) {
    static char blanks[PINHKRAY_MAX_BYTES + 2], lists[PINHKRAY_MAX_LISTS + 2];
    memset(blanks, ' ', PINHKRAY_MAX_BYTES + 1);
    memset(lists, '(', PINHKRAY_MAX_LISTS + 1);
    CHECK(solution(blanks, 0) == PINHKRAY_TOO_LONG);
    CHECK(solution("\xff", 0) == PINHKRAY_NOT_UTF8);
    CHECK(solution(")", 0) == PINHKRAY_STRAY_CLOSE);
    CHECK(solution("\"", 0) == PINHKRAY_UNCLOSED);
    CHECK(solution(lists, 0) == PINHKRAY_TOO_DEEP);
    CHECK(solution("(lambda () 1.5)", 0) == PINHKRAY_DECIMAL);
    CHECK(solution("(lambda () 1e5)", 0) == PINHKRAY_DECIMAL);
    CHECK(solution("(lambda () (lit \"#b\" (BitVec Size3)))", 0) == PINHKRAY_BAD_BITS);
    CHECK(solution("(lambda () (lit \"#b+1\" (BitVec Size2)))", 0) == PINHKRAY_BAD_BITS);
    CHECK(solution("(lambda () (lit \"#b1\" (BitVec Size)))", 0) == PINHKRAY_MALFORMED);
    CHECK(solution("(lambda () (lit \"#b101\" (BitVec Size2)))", 0) == PINHKRAY_WRONG_WIDTH);
    CHECK(solution("(lambda () (lit \"#b101\" (BitVec Size4)))", 0) == PINHKRAY_WRONG_WIDTH);
    CHECK(solution("(lambda ((x (func 65 () Int))) x)", 0) == PINHKRAY_FUNC_NUMBER);
}

static void reads(void) {
    const uint32_t one[] = {21, 1, 3, 16, 1, 1};
    const uint32_t both[] = {21, 1, 3, 16, 1, 1, 20, 1};
    uint64_t next = OLD, expressions = OLD;
    age();
    CHECK(pinhkray_read_one(bytes("(a) true"), 8, out, LENGTH(out), &words, &next) == PINHKRAY_ACCEPTED);
    CHECK(wrote(one, LENGTH(one)) && next == 3);
    age();
    CHECK(pinhkray_read_all(bytes("(a) true"), 8, out, LENGTH(out), &expressions, &words) == PINHKRAY_ACCEPTED);
    CHECK(wrote(both, LENGTH(both)) && expressions == 2);
    CHECK(pinhkray_read_one(bytes("(a"), 2, out, 0, &words, &next) == PINHKRAY_ENDS_EARLY);
    CHECK(words == 0 && next == 0);
    CHECK(pinhkray_read_one(bytes(""), 0, out, LENGTH(out), &words, &next) == PINHKRAY_ENDS_EARLY);
    CHECK(all(out, LENGTH(out), 0));
}

static void parts(void) {
    const uint32_t sort[] = {9, 0, 8, 1, 2};
    const uint32_t expression[] = {51, 1, 7, 0, 1, 36, 7, 0};
    const uint32_t bind[] = {2, 1, 1, 1, 64, 10, 2, 1, 37, 13, 1};
    const uint32_t literal[] = {35, 5, 0, 0, 0, 3};
    const char *digits = "(lit \"#b101\" (BitVec Size3))";
    age();
    CHECK(pinhkray_sort(bytes("(func 1 (Int) Bool)"), 19, tree, LENGTH(tree), out, LENGTH(out), &words) == 0);
    CHECK(wrote(sort, LENGTH(sort)) && all(tree, LENGTH(tree), 0));
    age();
    CHECK(pinhkray_expression(bytes("(exists ((x Int)) x)"), 20, tree, LENGTH(tree), out, LENGTH(out), 7, &words,
                              &after) == PINHKRAY_ACCEPTED);
    CHECK(wrote(expression, LENGTH(expression)) && after == 8);
    age();
    CHECK(pinhkray_bind(bytes("((x Int) ($k x))"), 16, tree, LENGTH(tree), out, LENGTH(out), 7, &words, &after) == 0);
    CHECK(wrote(bind, LENGTH(bind)) && after == 7);
    age();
    CHECK(pinhkray_expression(bytes(digits), strlen(digits), tree, LENGTH(tree), out, LENGTH(out), 7, &words,
                              &after) == PINHKRAY_ACCEPTED);
    CHECK(wrote(literal, LENGTH(literal)) && after == 7);
}

static void flattening(void) {
    const uint32_t curried[] = {38, 0, 1, 37, 6, 1, 38, 1, 1, 37, 3, 1, 2, 37, 1, 1};
    const uint32_t flat[] = {38, 0, 2, 37, 3, 1, 37, 6, 1, 37, 1, 1};
    /* A let as a head ends a chain of applications. */
    const uint32_t let[] = {38, 0, 1, 37, 1, 1, 52, 0, 0, 37, 2, 1, 38, 0, 1, 37, 3, 1, 37, 4, 1};
    const uint32_t named[] = {PINHKRAY_EXPR_LET, 0, 1, 33, 1, 37, 0, 1};
    age();
    CHECK(pinhkray_flatten(curried, LENGTH(curried), out, LENGTH(out), &words) == PINHKRAY_ACCEPTED);
    CHECK(wrote(flat, LENGTH(flat)));
    CHECK(pinhkray_flatten(curried, LENGTH(curried), out, 11, &words) == PINHKRAY_NO_ROOM);
    CHECK(words == 0 && all(out, 11, 0));
    CHECK(pinhkray_flatten(curried, 15, out, LENGTH(out), &words) == PINHKRAY_BAD_WORDS);
    CHECK(all(out, LENGTH(out), 0));
    age();
    CHECK(pinhkray_flatten(named, LENGTH(named), out, LENGTH(out), &words) == PINHKRAY_ACCEPTED);
    CHECK(wrote(named, LENGTH(named)));
    age();
    CHECK(pinhkray_flatten(let, LENGTH(let), out, LENGTH(out), &words) == PINHKRAY_ACCEPTED);
    CHECK(wrote(let, LENGTH(let)));
    CHECK(pinhkray_flatten(let, LENGTH(let) - 1, out, LENGTH(out), &words) == PINHKRAY_BAD_WORDS);
}

static uint8_t term[64];
static uint64_t bytes_out;

static int all_bytes(const uint8_t *slice, size_t len, uint8_t byte) {
    for (size_t i = 0; i < len; i++)
        if (slice[i] != byte)
            return 0;
    return 1;
}

static uint32_t smtlib(const uint32_t *solved, size_t len, const char *text, size_t room) {
    memset(term, 0xff, sizeof term);
    bytes_out = OLD;
    uint32_t refusal = pinhkray_smtlib(solved, len, bytes(text), strlen(text), term, room, &bytes_out);
    if (refusal != PINHKRAY_ACCEPTED)
        CHECK(all_bytes(term, room, 0) && bytes_out == 0);
    CHECK(all_bytes(term + room, sizeof term - room, 0xff));
    return refusal;
}

/* Whether these bytes were written, reported so many, and no byte of the slice is another new one. */
static int wrote_term(const char *expected) {
    size_t len = strlen(expected);
    return bytes_out == len && memcmp(term, expected, len) == 0 && all_bytes(term + len, sizeof term - len, 0xff);
}

/* From a text to a term, and each refusal. */
static void terms(void) {
    const char *text = "(lambda ((x Int)) (< x 5))";
    const char *written = "((|v 0| Int)) (< |v 0| 5)";
    const uint32_t named[] = {0, 37, 0, 1};
    const uint32_t function[] = {0, 49, PINHKRAY_THY_BVADD};
    const uint32_t left_over[] = {0, 33, 1, 33};
    const uint32_t let[] = {0, PINHKRAY_EXPR_LET_FRESH, 3, 0, 32, 1, 0, 0, 0, 36, 3, 0};
    const uint32_t named_let[] = {0, PINHKRAY_EXPR_LET, 0, 1, 32, 1, 0, 0, 0, 37, 0, 1};
    uint32_t deep[1 + PINHKRAY_MAX_EXPRESSIONS + 2];
    CHECK(solution(text, 0) == PINHKRAY_ACCEPTED);
    CHECK(smtlib(out, (size_t)words, text, strlen(written)) == PINHKRAY_ACCEPTED);
    CHECK(wrote_term(written));
    CHECK(smtlib(out, (size_t)words, text, sizeof term) == PINHKRAY_ACCEPTED);
    CHECK(wrote_term(written));
    CHECK(smtlib(out, (size_t)words, text, strlen(written) - 1) == PINHKRAY_NO_ROOM);
    CHECK(smtlib(out, (size_t)words, text, 0) == PINHKRAY_NO_ROOM);
    CHECK(smtlib(named, LENGTH(named), "x", sizeof term) == PINHKRAY_ACCEPTED);
    CHECK(wrote_term("() |n x|"));
    CHECK(smtlib(let, LENGTH(let), "", sizeof term) == PINHKRAY_ACCEPTED);
    CHECK(wrote_term("() (let ((|v 3| 1)) |v 3|)"));
    CHECK(smtlib(named_let, LENGTH(named_let), "x", sizeof term) == PINHKRAY_ACCEPTED);
    CHECK(wrote_term("() (let ((|n x| 1)) |n x|)"));
    CHECK(smtlib(named, LENGTH(named), "|", sizeof term) == PINHKRAY_UNPRINTABLE);
    CHECK(smtlib(named, LENGTH(named), "", sizeof term) == PINHKRAY_BAD_WORDS);
    CHECK(smtlib(named, 0, "x", sizeof term) == PINHKRAY_BAD_WORDS);
    CHECK(smtlib(left_over, LENGTH(left_over), "", sizeof term) == PINHKRAY_BAD_WORDS);
    CHECK(smtlib(function, LENGTH(function), "", 0) == PINHKRAY_UNWRITABLE);
    fill(deep, LENGTH(deep), PINHKRAY_EXPR_NOT);
    deep[0] = 0;
    deep[LENGTH(deep) - 2] = PINHKRAY_EXPR_BOOLEAN;
    deep[LENGTH(deep) - 1] = 1;
    CHECK(smtlib(deep, LENGTH(deep), "", sizeof term) == PINHKRAY_TOO_DEEP);
}

/* A text, and the first words of its answer: a kind, and what is behind it. */
struct answer {
    const char *text;
    uint32_t kind, field;
};

static const struct answer trees[] = {
    {" a", PINHKRAY_TREE_SYMBOL, 1},
    {"\"a\"", PINHKRAY_TREE_QUOTED, 1},
    {"7", PINHKRAY_TREE_INTEGER, 7},
    {" 1.5", PINHKRAY_TREE_DECIMAL, 1},
    {"true", PINHKRAY_TREE_BOOLEAN, 1},
    {"(a b)", PINHKRAY_TREE_LIST, 2},
};

static const struct answer sorts[] = {
    {"(BitVec Size3)", PINHKRAY_SORT_BITVEC, PINHKRAY_SORT_BV_SIZE},
    {"Size9", PINHKRAY_SORT_BV_SIZE, 9},
    {"@(7)", PINHKRAY_SORT_VAR, 7},
    {"(func 0 (Int) a)", PINHKRAY_SORT_FUNC, PINHKRAY_SORT_INT},
    {"(func 0 (Bool) a)", PINHKRAY_SORT_FUNC, PINHKRAY_SORT_BOOL},
    {"(func 0 (Real) a)", PINHKRAY_SORT_FUNC, PINHKRAY_SORT_REAL},
    {"(func 0 (Str) a)", PINHKRAY_SORT_FUNC, PINHKRAY_SORT_STR},
    {"(func 1 () Bool)", PINHKRAY_SORT_ABS, 0},
    {"(Set_Set Int)", PINHKRAY_SORT_APP, PINHKRAY_CTOR_SET},
    {"(Map_t Int Int)", PINHKRAY_SORT_APP, PINHKRAY_CTOR_MAP},
    {"(List Int)", PINHKRAY_SORT_APP, PINHKRAY_CTOR_DATA},
};

static const struct answer expressions[] = {
    {"7", PINHKRAY_EXPR_NUMERAL, 7},
    {"true", PINHKRAY_EXPR_BOOLEAN, 1},
    {"\"a\"", PINHKRAY_EXPR_STRING, 1},
    {"(lit \"#b101\" (BitVec Size3))", PINHKRAY_EXPR_BITVEC, 5},
    {" a", PINHKRAY_EXPR_VAR, 1},
    {"((as apply Int) a)", PINHKRAY_EXPR_APP, 1},
    {"(((as apply Int) a) b)", PINHKRAY_EXPR_APP, 0},
    {"(- a)", PINHKRAY_EXPR_NEG, PINHKRAY_EXPR_VAR},
    {"(+ a b)", PINHKRAY_EXPR_BINARY_OP, PINHKRAY_OP_ADD},
    {"(- a b)", PINHKRAY_EXPR_BINARY_OP, PINHKRAY_OP_SUB},
    {"(* a b)", PINHKRAY_EXPR_BINARY_OP, PINHKRAY_OP_MUL},
    {"(/ a b)", PINHKRAY_EXPR_BINARY_OP, PINHKRAY_OP_DIV},
    {"(mod a b)", PINHKRAY_EXPR_BINARY_OP, PINHKRAY_OP_MOD},
    {"(if a b c)", PINHKRAY_EXPR_IF_THEN_ELSE, PINHKRAY_EXPR_VAR},
    {"(and a b)", PINHKRAY_EXPR_AND, 2},
    {"(or a b)", PINHKRAY_EXPR_OR, 2},
    {"(not a)", PINHKRAY_EXPR_NOT, PINHKRAY_EXPR_VAR},
    {"(=> a b)", PINHKRAY_EXPR_IMP, PINHKRAY_EXPR_VAR},
    {"(<=> a b)", PINHKRAY_EXPR_IFF, PINHKRAY_EXPR_VAR},
    {"(= a b)", PINHKRAY_EXPR_ATOM, PINHKRAY_REL_EQ},
    {"(!= a b)", PINHKRAY_EXPR_ATOM, PINHKRAY_REL_NE},
    {"(> a b)", PINHKRAY_EXPR_ATOM, PINHKRAY_REL_GT},
    {"(>= a b)", PINHKRAY_EXPR_ATOM, PINHKRAY_REL_GE},
    {"(< a b)", PINHKRAY_EXPR_ATOM, PINHKRAY_REL_LT},
    {"(<= a b)", PINHKRAY_EXPR_ATOM, PINHKRAY_REL_LE},
    {"(is$a b)", PINHKRAY_EXPR_IS_CTOR, 4},
    {"(exists ((a Int)) a)", PINHKRAY_EXPR_EXISTS, 1},
    {"(let (a (let (b 1) b)) a)", PINHKRAY_EXPR_LET_FRESH, 1},
    {"strLen", PINHKRAY_EXPR_THY_FUNC, PINHKRAY_THY_STR_LEN},
    {"int_to_bv8", PINHKRAY_EXPR_THY_FUNC, PINHKRAY_THY_INT_TO_BV8},
    {"bv8_to_int", PINHKRAY_EXPR_THY_FUNC, PINHKRAY_THY_BV8_TO_INT},
    {"int_to_bv32", PINHKRAY_EXPR_THY_FUNC, PINHKRAY_THY_INT_TO_BV32},
    {"bv32_to_int", PINHKRAY_EXPR_THY_FUNC, PINHKRAY_THY_BV32_TO_INT},
    {"int_to_bv64", PINHKRAY_EXPR_THY_FUNC, PINHKRAY_THY_INT_TO_BV64},
    {"bv64_to_int", PINHKRAY_EXPR_THY_FUNC, PINHKRAY_THY_BV64_TO_INT},
    {"int_to_bv128", PINHKRAY_EXPR_THY_FUNC, PINHKRAY_THY_INT_TO_BV128},
    {"bv128_to_int", PINHKRAY_EXPR_THY_FUNC, PINHKRAY_THY_BV128_TO_INT},
    {"bvule", PINHKRAY_EXPR_THY_FUNC, PINHKRAY_THY_BVULE},
    {"bvsle", PINHKRAY_EXPR_THY_FUNC, PINHKRAY_THY_BVSLE},
    {"bvuge", PINHKRAY_EXPR_THY_FUNC, PINHKRAY_THY_BVUGE},
    {"bvsge", PINHKRAY_EXPR_THY_FUNC, PINHKRAY_THY_BVSGE},
    {"bvugt", PINHKRAY_EXPR_THY_FUNC, PINHKRAY_THY_BVUGT},
    {"bvsgt", PINHKRAY_EXPR_THY_FUNC, PINHKRAY_THY_BVSGT},
    {"bvult", PINHKRAY_EXPR_THY_FUNC, PINHKRAY_THY_BVULT},
    {"bvslt", PINHKRAY_EXPR_THY_FUNC, PINHKRAY_THY_BVSLT},
    {"bvudiv", PINHKRAY_EXPR_THY_FUNC, PINHKRAY_THY_BVUDIV},
    {"bvsdiv", PINHKRAY_EXPR_THY_FUNC, PINHKRAY_THY_BVSDIV},
    {"bvurem", PINHKRAY_EXPR_THY_FUNC, PINHKRAY_THY_BVUREM},
    {"bvsrem", PINHKRAY_EXPR_THY_FUNC, PINHKRAY_THY_BVSREM},
    {"bvlshr", PINHKRAY_EXPR_THY_FUNC, PINHKRAY_THY_BVLSHR},
    {"bvashr", PINHKRAY_EXPR_THY_FUNC, PINHKRAY_THY_BVASHR},
    {"bvand", PINHKRAY_EXPR_THY_FUNC, PINHKRAY_THY_BVAND},
    {"bvor", PINHKRAY_EXPR_THY_FUNC, PINHKRAY_THY_BVOR},
    {"bvxor", PINHKRAY_EXPR_THY_FUNC, PINHKRAY_THY_BVXOR},
    {"bvnot", PINHKRAY_EXPR_THY_FUNC, PINHKRAY_THY_BVNOT},
    {"bvadd", PINHKRAY_EXPR_THY_FUNC, PINHKRAY_THY_BVADD},
    {"bvneg", PINHKRAY_EXPR_THY_FUNC, PINHKRAY_THY_BVNEG},
    {"bvsub", PINHKRAY_EXPR_THY_FUNC, PINHKRAY_THY_BVSUB},
    {"bvmul", PINHKRAY_EXPR_THY_FUNC, PINHKRAY_THY_BVMUL},
    {"bvshl", PINHKRAY_EXPR_THY_FUNC, PINHKRAY_THY_BVSHL},
    {"Set_empty", PINHKRAY_EXPR_THY_FUNC, PINHKRAY_THY_SET_EMPTY},
    {"Set_sng", PINHKRAY_EXPR_THY_FUNC, PINHKRAY_THY_SET_SNG},
    {"Set_cup", PINHKRAY_EXPR_THY_FUNC, PINHKRAY_THY_SET_CUP},
    {"Set_cap", PINHKRAY_EXPR_THY_FUNC, PINHKRAY_THY_SET_CAP},
    {"Set_dif", PINHKRAY_EXPR_THY_FUNC, PINHKRAY_THY_SET_DIF},
    {"Set_mem", PINHKRAY_EXPR_THY_FUNC, PINHKRAY_THY_SET_MEM},
    {"Set_sub", PINHKRAY_EXPR_THY_FUNC, PINHKRAY_THY_SET_SUB},
    {"Map_default", PINHKRAY_EXPR_THY_FUNC, PINHKRAY_THY_MAP_DEFAULT},
    {"Map_select", PINHKRAY_EXPR_THY_FUNC, PINHKRAY_THY_MAP_SELECT},
    {"Map_store", PINHKRAY_EXPR_THY_FUNC, PINHKRAY_THY_MAP_STORE},
    {"arr_select_m", PINHKRAY_EXPR_THY_FUNC, PINHKRAY_THY_MAP_SELECT},
    {"arr_store_m", PINHKRAY_EXPR_THY_FUNC, PINHKRAY_THY_MAP_STORE},
};

static const struct answer predicates[] = {
    {"((x Int) ($k x))", PINHKRAY_PREDICATE_KVAR, 10},
    {"((x Int) (x))", PINHKRAY_PREDICATE_EXPR, PINHKRAY_EXPR_VAR},
};

/* Whether a call was accepted, and the words of its answer begin so. */
static void begins(const struct answer *a, uint32_t refusal, const uint32_t *answer) {
    int right = refusal == PINHKRAY_ACCEPTED && answer[0] == a->kind && answer[1] == a->field;
    if (!right)
        fprintf(stderr, "%s\n", a->text);
    CHECK(right);
}

/* The header's codes are those that the library writes. */
static void codes(void) {
    uint64_t next;
    for (const struct answer *a = trees; a < trees + LENGTH(trees); a++)
        begins(a, pinhkray_read_one(bytes(a->text), strlen(a->text), out, LENGTH(out), &words, &next), out);
    for (const struct answer *a = sorts; a < sorts + LENGTH(sorts); a++)
        begins(a, pinhkray_sort(bytes(a->text), strlen(a->text), tree, LENGTH(tree), out, LENGTH(out), &words), out);
    for (const struct answer *a = expressions; a < expressions + LENGTH(expressions); a++)
        begins(a, pinhkray_expression(bytes(a->text), strlen(a->text), tree, LENGTH(tree), out, LENGTH(out), 0, &words,
                                      &after), out);
    /* The name, its sort and how many predicates there are take four words. */
    for (const struct answer *a = predicates; a < predicates + LENGTH(predicates); a++)
        begins(a, pinhkray_bind(bytes(a->text), strlen(a->text), tree, LENGTH(tree), out, LENGTH(out), 0, &words,
                                &after), out + 4);
}

/* The next words of an answer. */
static const uint32_t *next_word;

static uint64_t fresh_number(void) {
    uint64_t low = next_word[0], high = next_word[1];
    next_word += 2;
    return high << 32 | low;
}

/* The value of the next expression, of the kinds that are met here, where the variable of this number has a value. */
static uint64_t value(uint64_t variable, uint64_t its_value) {
    switch (*next_word++) {
    case PINHKRAY_EXPR_NUMERAL: {
        uint64_t low = next_word[0];
        CHECK(next_word[1] == 0 && next_word[2] == 0 && next_word[3] == 0);
        next_word += 4;
        return low;
    }
    case PINHKRAY_EXPR_FRESH:
        CHECK(fresh_number() == variable);
        return its_value;
    case PINHKRAY_EXPR_ATOM: {
        uint32_t relation = *next_word++;
        uint64_t left = value(variable, its_value), right = value(variable, its_value);
        CHECK(relation == PINHKRAY_REL_LT);
        return left < right;
    }
    default: /* no other kind stands in these answers */
        CHECK(0);
        return 0;
    }
}

/* Whether the solution of one parameter, an integer, holds of a number. */
static int holds_of(const char *text, uint64_t of) {
    CHECK(solution(text, 7) == PINHKRAY_ACCEPTED);
    next_word = out;
    CHECK(*next_word++ == 1);
    uint64_t parameter = fresh_number();
    CHECK(*next_word++ == PINHKRAY_SORT_INT);
    uint64_t answer = value(parameter, of);
    CHECK(next_word == out + words);
    return answer == 1;
}

static void decoding(void) {
    CHECK(holds_of("(lambda ((x Int)) (< x 5))", 4));
    CHECK(!holds_of("(lambda ((x Int)) (< x 5))", 5));
}

int main(void) {
    CHECK(pinhkray_version() == PINHKRAY_VERSION);
    solutions();
    refusals();
    reads();
    parts();
    flattening();
    terms();
    codes();
    decoding();
    return failures != 0;
}
