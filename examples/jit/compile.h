/* Makes machine code of a program: items as text, which the library assembles, put into memory that is executed. */
#ifndef COMPILE_H
#define COMPILE_H

#include "language.h"

/* A test that may trap: its item, and the line of the program that it is of. */
typedef struct {
    size_t item;
    int line;
} test;

/* A program as a file of items. */
typedef struct {
    char *text;
    size_t length, room;
    size_t items, labels, constants, calls;
    test *tests;
    size_t test_count, test_room;
} items;

/* Symbol 0 is the variables, and symbol 1 + i the C function of the number i. */
enum { VARIABLES_SYMBOL = 0, FIRST_FUNCTION_SYMBOL = 1 };

void compile(const program *read, items *made);
void free_items(items *made);

/* Code in memory. */
typedef struct {
    uint8_t *memory;
    size_t size;     /* of the memory, in bytes */
    uint8_t *thunks; /* behind the code: one for each C function */
    size_t bytes, islands, relocations, traps;
    struct {
        uintptr_t place;
        error_code error;
        int line;
    } *places; /* where it traps, of each test */
    size_t test_count;
    double assembling, placing; /* seconds */
} code;

/* Assembles items, and puts the code into memory that is executed and not written. Where the library refuses them the
 * answer is false, and a line on the standard error says why. `variables` is where the code keeps them. */
bool load(const items *made, bool force, int64_t *variables, code *loaded);
void unload(code *loaded);

/* Runs code. Its variables are those that it was loaded with; `left` gets what it prints, and its error. */
void run(const code *loaded, outcome *left);

/* The processor time that this program has taken, in seconds. */
double seconds(void);

#endif
