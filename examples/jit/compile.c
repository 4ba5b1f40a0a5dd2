/* From a program to a file of items.
 *
 * A value of an expression stands in a register by how many are kept below it: the first in x20, the last of
 * MOST_DEPTH in x27. These are kept by the functions that are called, so a call saves nothing. The variables stand in
 * memory, at x19.
 */
#include "compile.h"
#include <inttypes.h>
#include <stdarg.h>
#include <stdio.h>
#include <stdlib.h>

enum { FIRST_REGISTER = 20, SCRATCH = 9 };

/* Adds text. */
__attribute__((format(printf, 2, 3))) static void add(items *made, const char *format, ...) {
    for (;;) {
        size_t room = made->room - made->length;
        va_list values;
        va_start(values, format);
        size_t length = (size_t)vsnprintf(made->text ? made->text + made->length : NULL, room, format, values);
        va_end(values);
        if (length < room) {
            made->length += length;
            return;
        }
        made->room = 2 * (made->room + length) + 4096;
        made->text = reserve(made->text, made->room);
    }
}

/* Adds an item, and a line feed. */
#define ITEM(made, ...) (add(made, __VA_ARGS__), add(made, "\n"), (made)->items++)

static void bind(items *made, size_t label) {
    ITEM(made, "bind L%zu", label);
}

/* Adds a test that traps, and keeps its line. */
static void trap_if_zero(items *made, int reg, error_code error, int line) {
    if (made->test_count == made->test_room) {
        made->test_room = 2 * made->test_room + 16;
        made->tests = reserve(made->tests, made->test_room * sizeof *made->tests);
    }
    made->tests[made->test_count++] = (test){.item = made->items, .line = line};
    ITEM(made, "TrapIf Zero(x%d,64) %d", reg, error);
}

static void compile_value(items *made, const expression *of, int depth);

/* A number: moved where it has 16 bits, and else loaded from the pool. */
static void compile_number(items *made, int64_t number, int to) {
    if (number >= 0 && number < 65536) {
        ITEM(made, "MovWide MovZ x%d %" PRId64 ",0 64", to, number);
        return;
    }
    add(made, "const %zu ", made->constants);
    for (int i = 0; i < 8; i++) add(made, "%02x", (unsigned)((uint64_t)number >> 8 * i & 255));
    add(made, "\n");
    ITEM(made, "ULoad64 x%d Const(%zu) -", to, made->constants++);
}

static void compile_call(items *made, const expression *call, int depth) {
    int arity = c_functions[call->number].arity, first = FIRST_REGISTER + depth;
    for (int i = 0; i < arity; i++) compile_value(made, call->operands[i], depth + i);
    for (int i = 0; i < MOST_ARGUMENTS; i++) {
        if (i < arity)
            ITEM(made, "Mov 64 x%d x%d", i, first + i);
        else
            ITEM(made, "MovWide MovZ x%d 0,0 64", i);
    }
    ITEM(made, "Call %" PRId64 " x0=x0,x1=x1 x0=reg(x0,i64) x30 SystemV SystemV 0 false -",
         FIRST_FUNCTION_SYMBOL + call->number);
    made->calls++;
    ITEM(made, "Mov 64 x%d x0", first);
}

/* The condition under which a comparison holds, and under which it does not; null of other operations. */
static const char *condition_of(operation operation, bool holds) {
    static const char *const conditions[][2] = {
        [LESS] = {"Ge", "Lt"}, [LESS_OR_EQUAL] = {"Gt", "Le"}, [GREATER] = {"Le", "Gt"},
        [GREATER_OR_EQUAL] = {"Lt", "Ge"}, [EQUAL] = {"Ne", "Eq"}, [NOT_EQUAL] = {"Eq", "Ne"},
    };
    return operation < LESS ? NULL : conditions[operation][holds];
}

/* Computes both operands, and compares them where the operation is a comparison. */
static void compile_operands(items *made, const expression *both, int depth) {
    compile_value(made, both->operands[0], depth);
    compile_value(made, both->operands[1], depth + 1);
    int left = FIRST_REGISTER + depth;
    if (condition_of(both->operation, true)) ITEM(made, "AluRRR SubS 64 xzr x%d x%d", left, left + 1);
}

static void compile_binary(items *made, const expression *both, int depth) {
    int to = FIRST_REGISTER + depth, right = to + 1;
    compile_operands(made, both, depth);
    switch (both->operation) {
    case ADD: ITEM(made, "AluRRR Add 64 x%d x%d x%d", to, to, right); return;
    case SUBTRACT: ITEM(made, "AluRRR Sub 64 x%d x%d x%d", to, to, right); return;
    case MULTIPLY: ITEM(made, "AluRRRR MAdd 64 x%d x%d x%d xzr", to, to, right); return;
    case DIVIDE:
        trap_if_zero(made, right, DIVISION_BY_ZERO, both->line);
        ITEM(made, "AluRRR SDiv 64 x%d x%d x%d", to, to, right);
        return;
    case REMAINDER:
        trap_if_zero(made, right, DIVISION_BY_ZERO, both->line);
        ITEM(made, "AluRRR SDiv 64 x%d x%d x%d", SCRATCH, to, right);
        ITEM(made, "AluRRRR MSub 64 x%d x%d x%d x%d", to, SCRATCH, right, to);
        return;
    default: ITEM(made, "CSet x%d %s", to, condition_of(both->operation, true)); return;
    }
}

static void compile_value(items *made, const expression *of, int depth) {
    int to = FIRST_REGISTER + depth;
    switch (of->kind) {
    case NUMBER: compile_number(made, of->number, to); return;
    case VARIABLE: ITEM(made, "ULoad64 x%d UnsignedOffset(x19,%" PRId64 ",i64) -", to, 8 * of->number); return;
    case BINARY: compile_binary(made, of, depth); return;
    case CALL: compile_call(made, of, depth); return;
    }
}

static bool is_zero(const expression *of) {
    return of->kind == NUMBER && !of->number;
}

/* Branches to a label where a value is 0, and goes on where it is not. A comparison branches by its flags, and one of
 * signs by the highest bit, which reaches 32 KiB alone: behind longer code the library puts an island for it. */
static void compile_test(items *made, const expression *of, size_t otherwise) {
    size_t on = made->labels++;
    bool is_sign = of->kind == BINARY && (of->operation == LESS || of->operation == GREATER_OR_EQUAL);
    if (is_sign && is_zero(of->operands[1])) {
        compile_value(made, of->operands[0], 0);
        const char *test = of->operation == LESS ? "Z" : "NZ";
        ITEM(made, "TestBitAndBranch %s L%zu L%zu x%d 63", test, otherwise, on, FIRST_REGISTER);
    } else if (of->kind == BINARY && condition_of(of->operation, false)) {
        compile_operands(made, of, 0);
        ITEM(made, "CondBr L%zu L%zu Cond(%s)", otherwise, on, condition_of(of->operation, false));
    } else {
        compile_value(made, of, 0);
        ITEM(made, "CondBr L%zu L%zu Zero(x%d,64)", otherwise, on, FIRST_REGISTER);
    }
    bind(made, on);
}

static void compile_all(items *made, const statement *from);

/* Behind the jump that ends a body stands a place for an island: only there can one be forced. */
static void compile_branches(items *made, const statement *of) {
    size_t begin = made->labels++, otherwise = made->labels++, end = made->labels++;
    bind(made, begin);
    compile_test(made, of->value, otherwise);
    compile_all(made, of->body);
    ITEM(made, "Jump L%zu", of->kind == WHILE ? begin : end);
    ITEM(made, "EmitIsland 0");
    bind(made, otherwise);
    compile_all(made, of->otherwise);
    bind(made, end);
}

static void compile_all(items *made, const statement *from) {
    for (; from; from = from->next) {
        if (from->kind == IF || from->kind == WHILE) {
            compile_branches(made, from);
            continue;
        }
        compile_value(made, from->value, 0);
        if (from->kind == ASSIGN)
            ITEM(made, "Store64 x%d UnsignedOffset(x19,%d,i64) -", FIRST_REGISTER, 8 * from->variable);
        if (from->kind == CHECK) trap_if_zero(made, FIRST_REGISTER, CHECK_FAILED, from->line);
    }
}

/* The code is one function, which saves what it changes. */
void compile(const program *read, items *made) {
    *made = (items){.text = NULL};
    ITEM(made, "StoreP64 x29 x30 SPPreIndexed(-16) -");
    for (int i = 19; i < 29; i += 2) ITEM(made, "StoreP64 x%d x%d SPPreIndexed(-16) -", i, i + 1);
    ITEM(made, "LoadExtNameFar x19 %d 0", VARIABLES_SYMBOL);
    compile_all(made, read->first);
    for (int i = 27; i > 18; i -= 2) ITEM(made, "LoadP64 x%d x%d SPPostIndexed(16) -", i, i + 1);
    ITEM(made, "LoadP64 x29 x30 SPPostIndexed(16) -");
    ITEM(made, "Ret");
}

void free_items(items *made) {
    free(made->text);
    free(made->tests);
}
