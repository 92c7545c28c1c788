// The deepest texts and words and the longest lists that the limits allow, and some just past them.
#include "robust.h"
#include <stdio.h>
#include <stdlib.h>
#include <string.h>

#define LISTS 64
#define NODES 128
#define LONG 20000

struct extreme extremes[300];
size_t extreme_count;

static void add(const char *name, u8 *bytes, size_t len, int form)
{
    if (extreme_count == sizeof extremes / sizeof extremes[0])
        exit(2);
    extremes[extreme_count++] = (struct extreme){name, bytes, len, form};
}

int extreme_for(const struct extreme *e, enum op op)
{
    return e->form == (op == FLATTEN ? EXPRESSION_WORDS : op == SMTLIB ? SOLUTION_WORDS : TEXT);
}

// The words of an expression, and those of a solution that has it as its body and no parameters.
static void add_words(const char *name, const u32 *all, size_t n)
{
    u32 *solution = malloc((n + 1) * 4);
    solution[0] = 0;
    memcpy(solution + 1, all, n * 4);
    add(name, (u8 *)(solution + 1), n * 4, EXPRESSION_WORDS);
    add(name, (u8 *)solution, (n + 1) * 4, SOLUTION_WORDS);
}

static void put(u8 **to, const char *text, size_t times)
{
    for (; times > 0; times--) {
        memcpy(*to, text, strlen(text));
        *to += strlen(text);
    }
}

struct nested {
    const char *name, *front, *before;
    size_t n;
    const char *core, *behind, *back;
};

static const struct nested nests[] = {
    {"lists", "", "(", LISTS, "", ")", ""},
    {"lists, one too deep", "", "(", LISTS + 1, "", ")", ""},
    {"lists round a name", "", "(", LISTS, "x", ")", ""},
    {"Set_Set", "", "(Set_Set ", LISTS, "Int", ")", ""},
    {"Map_t", "", "(Map_t Int ", LISTS, "Int", ")", ""},
    {"data", "", "(A ", LISTS, "Int", " Int)", ""},
    {"function, inputs", "", "(function ", LISTS, "Int", " Int)", ""},
    {"function, outputs", "", "(function Int ", LISTS, "Int", ")", ""},
    {"func, inputs", "", "(func 64 (", LISTS / 2, "Int", ") Int)", ""},
    {"func, outputs", "", "(func 64 () ", LISTS - 1, "Int", ")", ""},
    {"func, a size below", "", "(func 64 () ", LISTS - 1, "(A Size8)", ")", ""},
    {"not", "", "(not ", LISTS, "x", ")", ""},
    {"not, seen through", "(not ", "(", LISTS - 1, "x", ")", ")"},
    {"not, a decimal", "", "(not ", LISTS, "1.5", ")", ""},
    {"and", "", "(and x ", LISTS, "x", " x)", ""},
    {"or", "", "(or x ", LISTS, "x", " x)", ""},
    {"if", "", "(if x ", LISTS, "x", " x)", ""},
    {"+", "", "(+ x ", LISTS, "-1", ")", ""},
    {"-", "", "(- ", LISTS, "-1", ")", ""},
    {"=>", "", "(=> ", LISTS, "x", " x)", ""},
    {"<=", "", "(<= ", LISTS, "x", " x)", ""},
    {"cast", "", "(cast ", LISTS, "x", ")", ""},
    {"is$", "", "(is$C ", LISTS, "x", ")", ""},
    {"let, bindings", "", "(let (x ", LISTS / 2, "x", ") x)", ""},
    {"let, bodies", "", "(let (x 1) ", LISTS - 1, "x", ")", ""},
    {"let, one too deep", "", "(let (x 1) ", LISTS, "x", ")", ""},
    {"let, a name that hides itself", "", "(let (x x) ", LISTS - 1, "x", ")", ""},
    {"let, the outermost name", "(let (x 1) ", "(let (y x) ", LISTS - 2, "x", ")", ")"},
    {"let, heads", "", "(", LISTS - 2, "(let (f f) f)", " f)", ""},
    {"let and exists", "", "(let (x x) (exists ((y Int)) ", LISTS / 2 - 1, "(= x y)", "))", ""},
    {"let, pairs seen through", "(let ", "(", LISTS - 1, "x 1", ")", " x)"},
    {"exists", "", "(exists ((x Int)) ", LISTS - 2, "(not (not x))", ")", ""},
    {"exists, no binders", "", "(exists () ", LISTS - 1, "x", ")", ""},
    {"exists, a sort below", "", "(exists ((x (Set_Set Int))) ", LISTS - 3, "(+ x (not (not x)))", ")", ""},
    {"exists, a sort deep below", "", "(exists ((x (Set_Set (Set_Set (Set_Set (Set_Set Int)))))) ", LISTS - 6, "x", ")", ""},
    {"exists, a func as a sort", "(exists ((x ", "(func 64 () ", LISTS - 4, "(A Size8)", ")", ")) x)"},
    {"exists, a name repeated", "", "(exists ((x Int)) ", LISTS - 3, "(exists ((x Int) (x Int)) (not x))", ")", ""},
    {"applications, heads", "", "(", LISTS - 2, "((as apply Int) f)", " a)", ""},
    {"applications, arguments", "", "((not f) ", LISTS - 1, "x", ")", ""},
    {"apply", "", "((as apply Int) ", LISTS - 1, "f", ")", ""},
    {"apply, sorts", "((as apply ", "(Set_Set ", LISTS - 2, "Int", ")", ") f)"},
    {"a bind's sort", "((x ", "(Set_Set ", LISTS - 2, "Int", ")", ") ($k x))"},
    {"a bind's func", "((x ", "(func 64 () ", LISTS - 3, "(A Size8)", ")", ") ($k x))"},
    {"a bind's ands", "((x Int) ", "(and ", LISTS - 2, "($k x)", ")", ")"},
    {"a bind's nots", "((x Int) ", "(not ", LISTS - 1, "x", ")", ")"},
    {"a bind's exists", "((x Int) ", "(exists ((y Int)) ", LISTS - 3, "(not (not y))", ")", ")"},
    {"a bind's lists", "((x Int) ", "(", LISTS - 1, "x", ")", ")"},
    {"a bind's lets", "((x Int) ", "(let (x x) ", LISTS - 2, "x", ")", ")"},
    {"a solution's sort", "(lambda ((x ", "(Set_Set ", LISTS - 3, "Int", ")", ")) x)"},
    {"a solution's func", "(lambda ((x ", "(func 64 () ", LISTS - 4, "(A Size8)", ")", ")) x)"},
    {"a solution's nots", "(lambda ((x Int)) ", "(not ", LISTS - 1, "x", ")", ")"},
    {"a solution's ifs", "(lambda ((x Int)) ", "(if x ", LISTS - 1, "x", " x)", ")"},
    {"a solution's lets", "(lambda ((x Int)) ", "(let (x 1) ", LISTS - 2, "x", ")", ")"},
    {"a solution's exists", "(lambda ((x Int)) ", "(exists ((y Int)) ", LISTS - 3, "(not (not y))", ")", ")"},
    {"a solution's heads", "(lambda ((x Int)) ", "(", LISTS - 3, "((as apply Int) f)", " x)", ")"},
    {"a solution's sorted heads", "(lambda ((x Int)) ", "((as apply Int) ", LISTS - 2, "f", ")", ")"},
    {"a solution's arguments", "(lambda ((x Int)) ", "((not f) ", LISTS - 2, "(not x)", ")", ")"},
    {"a solution's heads in arguments", "(lambda ((x Int)) ", "(((as apply Int) (not f)) ", LISTS - 3, "x", ")", ")"},
};

struct row {
    const char *name, *before, *item, *behind;
};

static const struct row rows[] = {
    {"and", "(and a", " a", ")"},
    {"and of ands", "(and", "(and)", ")"},
    {"nots", "(and", "(not a)", ")"},
    {"arguments", "((not f)a", " a", ")"},
    {"apply, dropped items", "((as apply Int)a", " a", ")"},
    {"surplus", "(not a", " a", ")"},
    {"exists, a name repeated", "(exists(", "(a a)", ")a)"},
    {"exists, one inside each", "(and", "(exists((a a))a)", ")"},
    {"lets", "(and", "(let(a a)a)", ")"},
    {"let, the body's uses", "(let(a 1)(and", " a", "))"},
    {"let, the binding's uses", "(let(a 1)(let(b(and", " a", "))b))"},
    {"arguments of a sort", "(A a", " a", ")"},
    {"arguments of a sort, lists", "(A", "(A)", ")"},
    {"inputs", "(func 64(a", " a", ")a)"},
    {"many Abs", "(A", "(func 64()a)", ")"},
    {"indexes", "(A ", "@(1)", ")"},
    {"kvar arguments", "((x Int)($k a", " a", "))"},
    {"predicates", "((x Int)(and", "(a)", "))"},
    {"kvars", "((x Int)(and", "($ a)", "))"},
    {"a bind's lets, side by side", "((x Int)(and", "(let(x x)x)", "))"},
    {"a bind's sort", "((x(A a", " a", "))(x))"},
    {"a parameter repeated", "(lambda(", "(a a)", ")a)"},
    {"a parameter's uses", "(lambda((a a))(and", " a", "))"},
    {"a solution's lets, side by side", "(lambda((a a))(and", "(let(a a)a)", "))"},
    {"a solution's arguments", "(lambda()((not f)a", " a", "))"},
    {"a solution's joined arguments", "(lambda()(((((not f)a a)b b)c c)d", " d", "))"},
    {"a solution's applications", "(lambda()(and", "(((not f)a)b)", "))"},
    {"numbers", "(and 1", " 1", ")"},
    {"the most words of a tree", "(", "1(1)", ")"},
    {"strings", "(and", "\"\"", ")"},
    {"a name", "", "x", ""},
    {"a string", "\"", "(", "\""},
    {"an index", "@(", "0", "1)"},
    {"a width", "Size", "0", "1"},
    {"a number", "-", "0", "1"},
    {"a decimal", ".", "0", "1"},
    {"digits of a small size", "(lit \"#b0", "0", "1\" (BitVec Size3))"},
    {"literals", "(and", "(lit\"#b1\"(a Size1))", ")"},
    {"white space", "", " ", "x"},
    {"lists side by side", "", "()", ""},
    {"names side by side", "", "a ", ""},
};

static void nested_text(const struct nested *t)
{
    u8 *bytes = malloc(strlen(t->front) + t->n * (strlen(t->before) + strlen(t->behind)) + strlen(t->core) + strlen(t->back) + 1), *to = bytes;
    put(&to, t->front, 1);
    put(&to, t->before, t->n);
    put(&to, t->core, 1);
    put(&to, t->behind, t->n);
    put(&to, t->back, 1);
    add(t->name, bytes, (size_t)(to - bytes), 0);
}

static void row_text(const struct row *t)
{
    u8 *bytes = malloc(MAX_TEXT), *to = bytes;
    put(&to, t->before, 1);
    put(&to, t->item, (MAX_TEXT - strlen(t->before) - strlen(t->behind)) / strlen(t->item));
    put(&to, t->behind, 1);
    add(t->name, bytes, (size_t)(to - bytes), 0);
}

// As many binders as there is room for, with short names that differ.
static void binder_text(const char *name, const char *before, const char *behind)
{
    static const char letters[] = "abcdefghijklmnopqrstuvwxyzABCDEFGHIJKLMNOPQRSTUVWXYZ!#$%&*,/:;<=>?[]^_`{|}~";
    size_t n = sizeof letters - 1, i = 0;
    u8 *bytes = malloc(MAX_TEXT), *to = bytes, *end = bytes + MAX_TEXT - strlen(behind);
    put(&to, before, 1);
    for (; end - to >= 7; i++)
        to += sprintf((char *)to, "(%c%c a)", letters[i / n % n], letters[i % n]);
    put(&to, behind, 1);
    add(name, bytes, (size_t)(to - bytes), 0);
}

// As many digits as there is room for, all but the last 0, and a size that says as many, or one more.
static void literal_text(const char *name, size_t more)
{
    u8 *bytes = malloc(MAX_TEXT + 1), *to = bytes;
    const size_t longest = sizeof " (BitVec Size4294967295))";
    size_t digits = MAX_TEXT - longest - strlen("(lit \"#b\"");
    put(&to, "(lit \"#b", 1);
    put(&to, "0", digits - 1);
    put(&to, "1\"", 1);
    to += sprintf((char *)to, " (BitVec Size%zu))", digits + more);
    add(name, bytes, (size_t)(to - bytes), 0);
}

// So many words so many times, then others.
static void words(const char *name, const u32 *link, size_t size, size_t times, const u32 *core, size_t core_size, size_t core_times)
{
    u32 *all = malloc((size * times + core_size * core_times) * 4), *to = all;
    for (; times > 0; times--, to += size)
        memcpy(to, link, size * 4);
    for (; core_times > 0; core_times--, to += core_size)
        memcpy(to, core, core_size * 4);
    add_words(name, all, (size_t)(to - all));
    free(all);
}

#define LIST(...) (const u32[]){__VA_ARGS__}, sizeof((const u32[]){__VA_ARGS__}) / 4

// An application with a sort of many words round a head.
static void sort_words(const char *name, const u32 *link, size_t size, size_t times, size_t leaves)
{
    size_t n = 3 + size * times + leaves + 2;
    u32 *all = malloc(n * 4), *to = all;
    *to++ = 38, *to++ = 1, *to++ = 0;
    for (; times > 0; times--, to += size)
        memcpy(to, link, size * 4);
    for (; leaves > 0; leaves--)
        *to++ = 1;
    *to++ = 33, *to++ = 0;
    add_words(name, all, n);
    free(all);
}

// A solution with a parameter whose sort nests, words before each sort and behind it.
static void parameter_words(const char *name, const u32 *link, size_t size, size_t times, u32 behind, size_t behind_times)
{
    size_t n = 3 + size * times + 1 + behind_times + 2;
    u32 *all = malloc(n * 4), *to = all;
    *to++ = 1, *to++ = 0, *to++ = 0;
    for (; times > 0; times--, to += size)
        memcpy(to, link, size * 4);
    *to++ = 1;
    for (; behind_times > 0; behind_times--)
        *to++ = behind;
    *to++ = 33, *to++ = 0;
    add(name, (u8 *)all, n * 4, SOLUTION_WORDS);
}

void make_extremes(void)
{
    for (size_t i = 0; i < sizeof nests / sizeof nests[0]; i++)
        nested_text(&nests[i]);
    for (size_t i = 0; i < sizeof rows / sizeof rows[0]; i++)
        row_text(&rows[i]);
    binder_text("exists, binders", "(exists(", ")a)");
    binder_text("a bind's binders", "((x Int)(exists(", ")a))");
    binder_text("parameters", "(lambda(", ")a)");
    literal_text("digits", 0);
    literal_text("digits, one fewer than the size says", 1);
    const size_t most = NODES - 1;
    words("Neg", LIST(39), most, LIST(33, 0), 1);
    words("Not", LIST(44), most, LIST(33, 0), 1);
    words("Not, one too deep", LIST(44), most + 1, LIST(33, 0), 1);
    words("If", LIST(41, 33, 0, 33, 1), most, LIST(33, 0), 1);
    words("And", LIST(42, 2, 33, 1), most, LIST(33, 0), 1);
    words("Or", LIST(43, 1), most, LIST(33, 0), 1);
    words("Let, bodies", LIST(48, 1, 1, 33, 0), most, LIST(33, 0), 1);
    words("Let, bindings", LIST(48, 1, 1), most, LIST(33, 0), most + 1);
    words("Let of a number, bodies", LIST(52, 1, 1, 33, 0), most, LIST(33, 0), 1);
    words("Let of a number, bodies, one too deep", LIST(52, 1, 1, 33, 0), most + 1, LIST(33, 0), 1);
    words("Let of a number, bindings", LIST(52, 1, 1), most, LIST(33, 0), most + 1);
    words("lets as heads", LIST(38, 0, 1, 33, 1, 38, 0, 1, 33, 0, 52, 7, 9, 33, 1), most / 3, LIST(37, 3, 1), 1);
    words("lets, long", LIST(42, LONG / 10), 1, LIST(52, UINT32_MAX, UINT32_MAX, 33, 1, 36, UINT32_MAX, UINT32_MAX), LONG / 10);
    words("Exists", LIST(51, 1, 7, 0, 1), most, LIST(33, 0), 1);
    words("heads", LIST(38, 0, 1, 33, 1), most, LIST(33, 0), 1);
    words("heads with sorts", LIST(38, 1, 1, 33, 1, 2), most, LIST(33, 0), 1);
    words("heads without arguments", LIST(38, 0, 0), most, LIST(33, 0), 1);
    words("arguments", LIST(38, 0, 1), most, LIST(33, 0), most + 1);
    words("heads in arguments", LIST(38, 0, 1, 38, 0, 1, 33, 1), most, LIST(33, 0), 2 * most + 1);
    words("And, long", LIST(42, LONG), 1, LIST(33, 1), LONG);
    words("arguments, long", LIST(38, 0, LONG), 1, LIST(33, 1), LONG + 1);
    sort_words("BitVec", LIST(5), LONG, 1);
    sort_words("Func, inputs", LIST(8), LONG, LONG + 1);
    sort_words("Func, outputs", LIST(8, 1), LONG, 1);
    sort_words("Abs", LIST(9, 0), LONG, 1);
    sort_words("App", LIST(10, 2, 3, 3, 1), LONG, 1);
    sort_words("App, too few sorts", LIST(10, 0, UINT32_MAX), 100, LONG);
    words("arguments of names", LIST(38, 0, 1), most, LIST(37, 3, 1), most + 1);
    words("operands of names", LIST(42, LONG), 1, LIST(37, 3, 1), LONG);
    parameter_words("a parameter of Data sorts", LIST(10, 2, 3, 3, 1), LONG, 0, 0);
    parameter_words("a parameter of Maps, keys", LIST(10, 1, 2), LONG / 10, 2, LONG / 10);
    parameter_words("a parameter of Maps, values", LIST(10, 1, 2, 2), LONG, 0, 0);
}
