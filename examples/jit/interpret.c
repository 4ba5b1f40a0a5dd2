/* Runs programs as they were read: what compiled code is compared with. */
#include "language.h"
#include <setjmp.h>

outcome *printing;

static int64_t print(int64_t value, int64_t unused) {
    (void)unused;
    if (printing->print_count == printing->print_room) {
        printing->print_room = 2 * printing->print_room + 16;
        printing->printed = reserve(printing->printed, printing->print_room * sizeof value);
    }
    printing->printed[printing->print_count++] = value;
    return value;
}

/* The greatest number that divides both, as if they had no sign. */
static int64_t divisor(int64_t a, int64_t b) {
    uint64_t x = a < 0 ? 0 - (uint64_t)a : (uint64_t)a, y = b < 0 ? 0 - (uint64_t)b : (uint64_t)b;
    while (y) {
        uint64_t rest = x % y;
        x = y;
        y = rest;
    }
    return (int64_t)x;
}

static int64_t larger(int64_t a, int64_t b) {
    return a > b ? a : b;
}

const c_function c_functions[] = {{"print", 1, print}, {"divisor", 2, divisor}, {"larger", 2, larger}};
const int c_function_count = sizeof c_functions / sizeof *c_functions;

/* A quotient, which wraps around where the smallest number is divided by -1, as the machine has it. */
static int64_t quotient_of(int64_t left, int64_t right) {
    return right == -1 ? (int64_t)(0 - (uint64_t)left) : left / right;
}

int64_t result_of(operation operation, int64_t left, int64_t right) {
    uint64_t a = (uint64_t)left, b = (uint64_t)right;
    switch (operation) {
    case MULTIPLY: return (int64_t)(a * b);
    case DIVIDE: return quotient_of(left, right);
    case REMAINDER: return (int64_t)(a - (uint64_t)quotient_of(left, right) * b);
    case ADD: return (int64_t)(a + b);
    case SUBTRACT: return (int64_t)(a - b);
    case LESS: return left < right;
    case LESS_OR_EQUAL: return left <= right;
    case GREATER: return left > right;
    case GREATER_OR_EQUAL: return left >= right;
    case EQUAL: return left == right;
    case NOT_EQUAL: return left != right;
    }
    return 0;
}

typedef struct {
    outcome *left;
    jmp_buf end; /* where an error leads */
} machine;

static void stop(machine *machine, error_code error, int line) {
    machine->left->error = error;
    machine->left->line = line;
    longjmp(machine->end, 1);
}

static int64_t value_of(machine *machine, const expression *of) {
    switch (of->kind) {
    case NUMBER: return of->number;
    case VARIABLE: return machine->left->variables[of->number];
    default: break;
    }
    int64_t left = value_of(machine, of->operands[0]);
    int64_t right = of->operands[1] ? value_of(machine, of->operands[1]) : 0;
    if (of->kind == CALL) return c_functions[of->number].call(left, right);
    if ((of->operation == DIVIDE || of->operation == REMAINDER) && !right) stop(machine, DIVISION_BY_ZERO, of->line);
    return result_of(of->operation, left, right);
}

static void run_all(machine *machine, const statement *from) {
    for (; from; from = from->next) {
        int64_t value = value_of(machine, from->value);
        switch (from->kind) {
        case ASSIGN: machine->left->variables[from->variable] = value; break;
        case EVALUATE: break;
        case IF: run_all(machine, value ? from->body : from->otherwise); break;
        case WHILE:
            for (; value; value = value_of(machine, from->value)) run_all(machine, from->body);
            break;
        case CHECK:
            if (!value) stop(machine, CHECK_FAILED, from->line);
            break;
        }
    }
}

void interpret(const program *read, outcome *left) {
    *left = (outcome){.error = NO_ERROR};
    printing = left;
    machine machine = {.left = left};
    if (!setjmp(machine.end)) run_all(&machine, read->first);
}
