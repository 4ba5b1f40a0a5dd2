/* Compiles programs to machine code, runs them, and compares with the interpreter.
 *
 * jit FILE..            runs each file both ways, and prints what it prints
 * jit generated COUNT   runs so many programs that are made by chance
 *
 * Each program is assembled with the islands that it needs, and once more with islands forced. The status is 1 where
 * variables, printed numbers or the error differ.
 */
#include "compile.h"
#include "generate.h"
#include <inttypes.h>
#include <stdbool.h>
#include <stdio.h>
#include <stdlib.h>
#include <string.h>

/* What all programs together have, and the processor time of each step, in seconds. */
typedef struct {
    size_t programs, differ, bytes, with_islands[2], with_constants, stopped; /* islands as needed, and forced */
    double compiling, assembling, placing, running, interpreting;
} totals;

static char *read_file(const char *name) {
    FILE *file = fopen(name, "rb");
    char *text = NULL;
    size_t length = 0, got;
    do {
        text = reserve(text, length + 65536);
        got = file ? fread(text + length, 1, 65535, file) : 0;
        length += got;
    } while (got);
    text[length] = 0;
    if (file) fclose(file);
    else fprintf(stderr, "%s: cannot be read\n", name);
    return file ? text : (free(text), NULL);
}

static bool is_same(const outcome *one, const outcome *other) {
    size_t count = one->print_count;
    return one->error == other->error && one->line == other->line &&
           !memcmp(one->variables, other->variables, sizeof one->variables) && count == other->print_count &&
           (!count || !memcmp(one->printed, other->printed, count * sizeof *one->printed));
}

static const char *text_of(error_code error) {
    return error == DIVISION_BY_ZERO ? "division by zero" : "check failed";
}

static void show(const char *name, const outcome *left) {
    for (size_t i = 0; i < left->print_count; i++) printf("%" PRId64 "\n", left->printed[i]);
    if (left->error) printf("%s:%d: %s\n", name, left->line, text_of(left->error));
}

/* Runs items as code, and adds to the totals. False: they are refused, or leave something else than `wanted`. */
static bool run_items(const items *made, bool force, const outcome *wanted, totals *of) {
    outcome left = {.error = NO_ERROR};
    code loaded;
    bool is_good = load(made, force, left.variables, &loaded);
    if (is_good) {
        double begin = seconds();
        run(&loaded, &left);
        double end = seconds();
        is_good = is_same(wanted, &left);
        of->assembling += loaded.assembling;
        of->placing += loaded.placing;
        of->running += end - begin;
        of->bytes += loaded.bytes;
        of->with_islands[force] += loaded.islands > 0;
        of->with_constants += !force && made->constants;
        of->stopped += !force && left.error;
    }
    unload(&loaded);
    free(left.printed);
    return is_good;
}

/* Runs a program by the interpreter, and as code both ways. */
static bool run_program(const char *name, const char *text, bool shows, totals *of) {
    program read;
    items made;
    outcome wanted;
    if (!text || !read_program(name, text, &read)) return false;
    double begin = seconds();
    interpret(&read, &wanted);
    double middle = seconds();
    compile(&read, &made);
    of->compiling += seconds() - middle;
    of->interpreting += 2 * (middle - begin); /* twice, as the code is run */
    of->programs++;
    if (shows) show(name, &wanted);
    bool is_good = true;
    for (int force = 0; force < 2; force++) {
        if (run_items(&made, force, &wanted, of)) continue;
        printf("%s: %s islands: the code does something else\n", name, force ? "forced" : "needed");
        is_good = false;
    }
    of->differ += !is_good;
    free_items(&made);
    free_program(&read);
    free(wanted.printed);
    return is_good;
}

static void print_totals(const totals *of) {
    printf("%zu programs, each with islands as needed and forced: %zu differ from the interpreter\n", of->programs,
           of->differ);
    printf("%zu need islands, %zu have some where they are forced, %zu have constants, and %zu end by a trap\n",
           of->with_islands[0], of->with_islands[1], of->with_constants, of->stopped);
    printf("%zu bytes of code; seconds: to items %.4f, assembled %.4f, placed %.4f, run %.4f; interpreted %.4f\n",
           of->bytes, of->compiling, of->assembling, of->placing, of->running, of->interpreting);
}

int main(int count, char **words) {
    totals of = {.programs = 0};
    bool is_good = count > 1;
    if (count == 3 && !strcmp(words[1], "generated")) {
        for (uint64_t i = 0; i < strtoull(words[2], NULL, 10); i++) {
            char name[40], *text = generate(i);
            snprintf(name, sizeof name, "generated %" PRIu64, i);
            is_good &= run_program(name, text, false, &of);
            free(text);
        }
    } else {
        for (int i = 1; i < count; i++) {
            char *text = read_file(words[i]);
            is_good &= run_program(words[i], text, true, &of);
            free(text);
        }
    }
    print_totals(&of);
    return is_good ? 0 : 1;
}
