/* The language: integers of 64 bits, which wrap around; variables, which are 0 at first; and these statements.
 *
 *     NAME = EXPRESSION;
 *     EXPRESSION;                               mostly a call, as print(x);
 *     if (EXPRESSION) { .. } else { .. }        with or without `else`; 0 is false
 *     while (EXPRESSION) { .. }
 *     check EXPRESSION;                         an error where it is 0
 *
 * Operators are those of C, by its precedence: * / %, + -, < <= > >=, == !=, and a minus before an operand. A division
 * by zero is an error. An operand may be a number in decimal, a variable, a call of a C function, or an expression in
 * parentheses. Behind # a line says nothing.
 */
#ifndef LANGUAGE_H
#define LANGUAGE_H

#include <stdbool.h>
#include <stddef.h>
#include <stdint.h>

enum {
    MOST_VARIABLES = 64,
    MOST_ARGUMENTS = 2,
    MOST_DEPTH = 8 /* how many values an expression may keep at once: compiled code has a register for each */
};

/* What may end a program before its last statement, by the code of its trap. */
typedef enum { NO_ERROR = 0, DIVISION_BY_ZERO = 1, CHECK_FAILED = 2 } error_code;

typedef enum {
    MULTIPLY, DIVIDE, REMAINDER, ADD, SUBTRACT,
    LESS, LESS_OR_EQUAL, GREATER, GREATER_OR_EQUAL, EQUAL, NOT_EQUAL
} operation;

/* A C function that programs call. One that takes one number is passed 0 as its second. */
typedef struct {
    const char *name;
    int arity;
    int64_t (*call)(int64_t, int64_t);
} c_function;

extern const c_function c_functions[];
extern const int c_function_count;

typedef struct expression {
    enum { NUMBER, VARIABLE, BINARY, CALL } kind;
    int line;
    int64_t number; /* of a number its value; of a variable or a call which one of all it is */
    operation operation;
    struct expression *operands[MOST_ARGUMENTS]; /* of a binary expression both; of a call as many as its arity says */
} expression;

typedef struct statement {
    enum { ASSIGN, EVALUATE, IF, WHILE, CHECK } kind;
    int line;
    int variable; /* of an assignment */
    expression *value;
    struct statement *body, *otherwise; /* their first statements */
    struct statement *next;             /* the one behind it */
} statement;

typedef struct {
    statement *first;
    char names[MOST_VARIABLES][32];
    int variables;
    void *blocks; /* all memory of the above */
} program;

/* How a run ended, and what it left. */
typedef struct {
    error_code error;
    int line; /* of the error */
    int64_t variables[MOST_VARIABLES];
    int64_t *printed;
    size_t print_count, print_room;
} outcome;

/* Reads a program. Where it is none the answer is false, and a line on the standard error says why. */
bool read_program(const char *name, const char *text, program *read);
void free_program(program *read);

/* How many values an expression keeps at once. */
int depth_of(const expression *of);

/* What an operation gives. The second operand of a division is not 0. */
int64_t result_of(operation operation, int64_t left, int64_t right);

/* Runs a program as it was read. */
void interpret(const program *read, outcome *left);

/* Where print puts its numbers. */
extern outcome *printing;

/* Reserves memory, or ends this program. */
void *reserve(void *block, size_t size);

#endif
