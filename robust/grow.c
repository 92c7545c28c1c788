// Random numbers, texts after the grammar with some damage, and words of expressions.
#include "robust.h"
#include <stdio.h>
#include <string.h>

static u64 state = 1;

void seed_random(u64 seed)
{
    state = seed * 0x9E3779B97F4A7C15u | 1;
}

u64 random_u64(void)
{
    state ^= state << 13;
    state ^= state >> 7;
    state ^= state << 17;
    return state * 0x2545F4914F6CDD1Du;
}

size_t below(size_t n)
{
    return (size_t)((random_u64() >> 16) % n);
}

#define COUNT(list) (sizeof(list) / sizeof(list)[0])

const char *const dictionary[] = {
    "(", ")", "\"", "@(", "()", "(())", " ", "\n", "\t", "\xc2\x85", "\xe2\x80\x83", "\xe3\x80\x80", "\xc2\xa0", "\xe1\x9a\x80", "\xc3\xa9",
    "\xf0\x9d\x92\xb3", "\xed\xa0\x80", "\xf0\x8f\xbf\xbf", "\xf4\x90\x80\x80", "\xc0\x80", "\xff", "\xe2\x80",
    "lambda", "exists", "let", "not", "or", "and", "lit", "if", "-", "+", "*", "/", "mod", "=", "!=", "<", "<=", ">", ">=", "<=>", "=>", "cast",
    "cast_as_int", "is$", "is$C", "as", "apply", "(as apply Int)", "((as apply Int) f)", "$", "$k", "func", "function", "Set_Set", "Map_t",
    "Array_t", "BitVec", "(BitVec Size3)", "Int", "int", "Bool", "bool", "Real", "real", "Str", "str", "true", "false", "x", "y", "z", "(x Int)",
    "((x Int))", "((x Int) (y Int))", "(let (x 1) x)", "(let (x x) (and x y))", "(x 1)",
    "Size", "Size1", "Size3", "Size4294967295", "Size4294967296", "Size+8", "@(0)", "@(18446744073709551615)",
    "@(18446744073709551616)", "@)", "0", "1", "64", "65", "-1", "+5", "4294967296", "18446744073709551616",
    "170141183460469231731687303715884105727", "170141183460469231731687303715884105728", "-170141183460469231731687303715884105728",
    "-170141183460469231731687303715884105729", "999999999999999999", "1000000000000000000", "1.5", ".5", "5.", "1e5", "1E-5", "inf", "-Infinity",
    "NaN", "-inf", "(inf Int)", "#b", "\"#b101\"", "(lit \"#b101\" (BitVec Size3))", "(lit \"#b1\" (BitVec Size2))", "strLen", "int_to_bv8", "bv8_to_int", "int_to_bv32", "bv32_to_int", "int_to_bv64",
    "bv64_to_int", "int_to_bv128", "bv128_to_int", "bvule", "bvsle", "bvuge", "bvsge", "bvugt", "bvsgt", "bvult", "bvslt", "bvudiv", "bvsdiv",
    "bvurem", "bvsrem", "bvlshr", "bvashr", "bvand", "bvor", "bvxor", "bvnot", "bvadd", "bvneg", "bvsub", "bvmul", "bvshl", "Set_empty", "Set_sng",
    "Set_cup", "Set_cap", "Set_dif", "Set_mem", "Set_sub", "Map_default", "Map_select", "Map_store", "arr_select_m", "arr_store_m", "bvad", "strLe",
};
const size_t dictionary_size = COUNT(dictionary);

// %X stands for a text of the rule X. The first rules of each list end the growth.
static const char *const exprs[] = {
    "%N", "%N", "%I", "true", "\"a b\"", "%T", "false", "(not %E)", "(and%A)", "(or%A)", "(if %E %E %E)", "(%O %E %E)", "(%O %E %E)", "(- %E)",
    "(let (%N %E) %E)", "(let ((%N %E)) %E)", "(let (x %E) (%O x %E))", "((let (%N %E) %N)%A)", "(let (%T %E) %T)",
    "(exists (%B) %E)", "(exists (%B) %E)", "(%T %E)", "(%T %E %E)", "((as apply %S) %E)",
    "(((as apply %S) %E)%A)", "((%E %E) %E)", "((not %E)%A)", "(is$C %E)", "(cast %E)", "(lit \"#b%D\" (BitVec %Z))", "%L", "%L", "(%E)", "(%N%A)",
};
static const char *const sorts[] = {
    "Int", "Bool", "real", "str", "A", "%X", "%Z", "(Set_Set %S)", "(Map_t %S %S)", "(Array_t %S %S)", "(BitVec %Z)", "(BitVec %S)", "(A %S)",
    "(func %K (%R) %S)", "(function %S %S)", "(A)", "(Bag %S %S)",
};
static const char *const binds[] = {"((%N %S) %P)"};
static const char *const preds[] = {"(%E)", "%E", "($k%M)", "(and %P %P)", "(and ($k %N) (%E))", "(and%A)"};
static const char *const solutions[] = {"(lambda (%B) %E)", "(lambda (%B) %E)", "(lambda () %E)"};
static const char *const names[] = {"x", "y", "z", "f", "a", "x", "\xc3\xa9", "$k", "lq_karg$x##0"};
static const char *const integers[] = {"0", "1", "-5", "+7", "4294967296", "18446744073709551615", "-170141183460469231731687303715884105728"};
static const char *const bits[] = {"0", "1", "01", "101", "110101", "+", "+1", "00000000000000000000000000000000", "2", "\xc3\xa9", ""};
static const char *const widths[] = {"Size1", "Size+2", "Size03", "Size3", "Size64", "Size+8", "Size4294967295", "Sizex", "Size"};
static const char *const indexes[] = {"@(0)", "@(+7)", "@(18446744073709551615)", "@(x)"};
static const char *const numbers[] = {"0", "1", "2", "64", "65", "-1"};
static const char *const operators[] = {"+", "-", "*", "/", "mod", "=", "!=", "<", "<=", ">", ">=", "<=>", "=>"};
static const char *const binders[] = {"", "(%N %S)", "(x %S) (y %S)", "(%N %S) (%N %S)", "(x Int) (y Int) (z %S)"};
static const char *const operands[] = {"", " %E", " %E %E", " %E %E %E"};
static const char *const inputs[] = {"", "%S", "%S %S", "%S %S %S"};
static const char *const arguments[] = {"", " %N", " %N %N"};

static u8 *text;
static size_t used, room;

static void put(const char *bytes, size_t n)
{
    if (used + n <= room) {
        memcpy(text + used, bytes, n);
        used += n;
    }
}

static void expand(const char *rule, int depth);

static void pick(const char *const *list, size_t n, size_t ending, int depth)
{
    expand(list[below(depth <= 0 ? ending : n)], depth - 1);
}

// A literal of some digits, mostly as many as its size says.
static void literal(void)
{
    static const size_t counts[] = {1, 2, 3, 8, 31, 32, 33, 64, 127, 128, 129, 200};
    static const char *const spellings[] = {"Size", "Size", "Size+", "Size0", "Size+00"};
    size_t n = below(4) ? counts[below(COUNT(counts))] : 1 + below(140), zeros = n > 128 && below(8) ? n - 128 : below(3) ? 0 : below(n);
    expand(below(8) ? "(lit \"#b" : "(lit\"#b", 0);
    for (size_t i = 0; i < n; i++)
        put(i >= zeros && (i == zeros || below(2)) ? "1" : "0", 1);
    expand("\" (BitVec ", 0);
    expand(spellings[below(COUNT(spellings))], 0);
    char said[24];
    snprintf(said, sizeof said, "%zu))", below(8) ? n : below(2) ? n + 1 : n - 1);
    expand(said, 0);
}

static void rule_of(char name, int depth)
{
    switch (name) {
    case 'E': pick(exprs, COUNT(exprs), 6, depth); return;
    case 'S': pick(sorts, COUNT(sorts), 5, depth); return;
    case 'P': pick(preds, COUNT(preds), 2, depth); return;
    case 'B': pick(binders, COUNT(binders), 2, depth); return;
    case 'A': pick(operands, COUNT(operands), 2, depth); return;
    case 'R': pick(inputs, COUNT(inputs), 2, depth); return;
    case 'M': pick(arguments, COUNT(arguments), 2, depth); return;
    case 'N': pick(names, COUNT(names), COUNT(names), 0); return;
    case 'I': pick(integers, COUNT(integers), COUNT(integers), 0); return;
    case 'L': literal(); return;
    case 'D': pick(bits, COUNT(bits), COUNT(bits), 0); return;
    case 'Z': pick(widths, COUNT(widths), COUNT(widths), 0); return;
    case 'X': pick(indexes, COUNT(indexes), COUNT(indexes), 0); return;
    case 'K': pick(numbers, COUNT(numbers), COUNT(numbers), 0); return;
    case 'O': pick(operators, COUNT(operators), COUNT(operators), 0); return;
    default: expand(dictionary[dictionary_size - 1 - below(46)], 0); // a theory function's name
    }
}

static void expand(const char *rule, int depth)
{
    for (; *rule; rule++) {
        if (*rule == '%')
            rule_of(*++rule, depth);
        else
            put(rule, 1);
    }
}

// A text for this operation, sometimes for another one, sometimes several.
static size_t grow_text(enum op op, u8 *to, size_t to_room)
{
    text = to;
    room = to_room;
    used = 0;
    int depth = 1 + (int)below(6);
    if (below(8) == 0)
        op = (enum op)below(FLATTEN);
    switch (op) {
    case SORT: rule_of('S', depth); break;
    case BIND: pick(binds, COUNT(binds), 1, depth); break;
    case SOLUTION: pick(solutions, COUNT(solutions), COUNT(solutions), depth); break;
    default: rule_of('E', depth);
    }
    if (op == READ_ALL)
        for (size_t n = below(4); n > 0; n--) {
            put(" ", 1);
            rule_of("ESPI"[below(4)], depth);
        }
    if (below(4) == 0)
        for (size_t n = 1 + below(3); n > 0 && used > 0; n--) {
            size_t i = below(used);
            if (below(2))
                text[i] = below(4) ? (u8)dictionary[below(dictionary_size)][0] : (u8)random_u64();
            else
                memmove(text + i, text + i + 1, --used - i);
        }
    return used;
}

static u32 *words;

static void word(u32 w)
{
    if (used < room)
        words[used++] = w;
}

static void some(int n)
{
    while (n-- > 0)
        word(below(3) ? (u32)below(9) : (u32)random_u64());
}

static void grow_sort(int depth)
{
    u32 kind = 1 + (u32)below(depth <= 0 ? 4 : 10);
    word(kind);
    switch (kind) {
    case 5: grow_sort(depth - 1); return;
    case 6: some(1); return;
    case 7: some(2); return;
    case 8: grow_sort(depth - 1); grow_sort(depth - 1); return;
    case 9: some(1); grow_sort(depth - 1); return;
    case 10: {
        u32 of = (u32)below(3), n = (u32)below(3);
        word(of);
        some(of == 2 ? 2 : 0);
        word(n);
        while (n-- > 0)
            grow_sort(depth - 1);
        return;
    }
    default: return;
    }
}

static void grow_expr(int depth)
{
    static const u32 leaves[] = {32, 33, 34, 35, 36, 37, 49};
    u32 kind = depth <= 0 ? leaves[below(COUNT(leaves))] : below(3) == 0 ? 38 : 32 + (u32)below(21), n = 0;
    word(kind);
    switch (kind) {
    case 32: some(4); break;
    case 33: word((u32)below(2)); break;
    case 34: case 36: case 37: some(2); break;
    case 35: some(5); break;
    case 38: {
        u32 flag = (u32)below(2);
        word(flag);
        word(n = (u32)below(4));
        while (n-- > 0)
            grow_expr(depth - 1 - (int)below(3));
        if (flag)
            grow_sort((int)below(3));
        n = 1;
        break;
    }
    case 39: case 44: n = 1; break;
    case 40: word((u32)below(5)); n = 2; break;
    case 41: n = 3; break;
    case 42: case 43: word(n = (u32)below(4)); break;
    case 45: case 46: n = 2; break;
    case 47: word((u32)below(6)); n = 2; break;
    case 48: case 52: some(2); n = 2; break;
    case 49: word((u32)below(42)); break;
    case 50: some(2); n = 1; break;
    default:
        word(n = (u32)below(3));
        for (; n > 0; n--) {
            some(2);
            grow_sort(2);
        }
        n = 1;
    }
    while (n-- > 0)
        grow_expr(depth - 1);
}

// Words of an expression, sometimes damaged.
size_t grow_words(u32 *to, size_t to_room)
{
    words = to;
    room = to_room;
    used = 0;
    grow_expr((int)below(7));
    if (below(4) == 0 && used > 0)
        words[below(used)] = below(2) ? (u32)below(70) : (u32)random_u64();
    if (below(16) == 0 && used > 0)
        used = below(used);
    return used;
}

// Mostly bytes that a name may have, so that words of small numbers are spans that can be written; and each kind of the others.
const u8 lent_text[LENT_TEXT + 1] = "abcdefghijklmnop qrst(uv)w;x\"yzABCDEFGHIJKLMNO|PQRSTUVWXYZ0123456789 !#$%&'*+,-./:<=>?@[]^_`{}~\\\n\x1f\x7f\x80\xff"
                              "abcdefghijklmnopqrstuvwxyzabcdefghijklmnopqrstuvwxyz";

size_t grow_input(enum op op, u8 *to, size_t texts, size_t most)
{
    u32 *solution = (u32 *)(void *)to;
    if (!takes_words(op))
        return grow_text(op, to, texts);
    if (op == FLATTEN)
        return 4 * grow_words(solution, most);
    // A solution: its parameters, and an expression behind them.
    words = solution;
    room = most;
    used = 0;
    u32 n = (u32)below(3);
    word(n);
    while (n-- > 0) {
        some(2);
        grow_sort((int)below(3));
    }
    size_t header = used;
    return 4 * (header + grow_words(solution + header, most - header));
}

// A count for a call that needs so many numbers.
u64 grow_count(u64 need)
{
    static const u64 round[] = {0x7fffffff, 0x80000000, 0xfffffffe, 0xffffffff, 0x100000000, 1ull << 63, UINT64_MAX - 1, UINT64_MAX};
    switch (below(8)) {
    case 0: case 1: case 2: return 0;
    case 3: return below(1000);
    case 4: return round[below(COUNT(round))];
    case 5: return UINT64_MAX - need;
    case 6: return UINT64_MAX - need + 1 + below(2);
    default: return UINT64_MAX - below(6);
    }
}

// The length of a slice of which so many words are needed.
size_t grow_length(size_t need)
{
    switch (below(8)) {
    case 0: case 1: case 2: case 3: return need;
    case 4: case 5: return need + 1 + below(9);
    case 6: return need - (need > 0);
    default: return below(need + 2);
    }
}
