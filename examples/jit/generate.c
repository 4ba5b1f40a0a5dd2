/* Programs by chance. Each ends: a loop counts down a variable that nothing else changes. Some divide by zero or fail a
 * check, and some have a loop so long that its first branch needs an island. */
#include "generate.h"
#include "language.h"
#include <stdio.h>
#include <stdlib.h>
#include <string.h>

typedef struct {
    char *text;
    size_t length, room;
    uint64_t state;
    int counters; /* of loops, so far */
} generator;

static void say(generator *to, const char *text) {
    size_t length = strlen(text);
    if (to->length + length >= to->room) {
        to->room = 2 * (to->room + length) + 4096;
        to->text = reserve(to->text, to->room);
    }
    memcpy(to->text + to->length, text, length + 1);
    to->length += length;
}

static void say_number(generator *to, long long number) {
    char text[32];
    snprintf(text, sizeof text, "%lld", number);
    say(to, text);
}

/* A number below another one (xorshift, of 64 bits). */
static uint64_t below(generator *from, uint64_t end) {
    from->state ^= from->state << 13;
    from->state ^= from->state >> 7;
    from->state ^= from->state << 17;
    return (from->state >> 11) % end;
}

static bool one_in(generator *from, uint64_t count) {
    return !below(from, count);
}

static void say_variable(generator *to) {
    say(to, (char[]){(char)('a' + below(to, 8)), 0});
}

static void say_counter(generator *to, int counter) {
    say(to, "n");
    say_number(to, counter);
}

static void say_leaf(generator *to) {
    if (!one_in(to, 3)) {
        say_variable(to);
    } else if (one_in(to, 3)) {
        say_number(to, (long long)(below(to, UINT64_MAX) << below(to, 11)) & INT64_MAX);
    } else {
        say_number(to, (long long)below(to, 70000));
    }
}

/* An expression of at most so many levels. A divisor is mostly a number other than 0. */
static void say_expression(generator *to, int levels) {
    static const char *const words[] = {" * ", " + ", " - ", " < ", " <= ", " > ", " >= ", " == ", " != ",
                                        " / ", " % "};
    uint64_t choice = levels ? below(to, 20) : 20;
    if (choice >= 17) {
        say_leaf(to);
    } else if (choice >= 15) {
        say(to, choice == 15 ? "divisor(" : "larger(");
        say_expression(to, levels - 1);
        say(to, ", ");
        say_expression(to, levels - 1);
        say(to, ")");
    } else if (choice == 14) {
        say(to, "-");
        say_leaf(to);
    } else {
        const char *word = words[choice < 11 ? choice : choice - 11];
        say(to, "(");
        say_expression(to, levels - 1);
        say(to, word);
        if (strpbrk(word, "/%") && !one_in(to, 30))
            say_number(to, 1 + (long long)below(to, 1000));
        else
            say_expression(to, levels - 1);
        say(to, ")");
    }
}

static void say_statements(generator *to, int count, int levels);

/* A loop that counts a variable of its own down, to 1 or to 0. */
static void say_loop(generator *to, int count, int levels) {
    int counter = to->counters++;
    bool to_zero = one_in(to, 2);
    say_counter(to, counter);
    say(to, " = ");
    say_number(to, (long long)below(to, 6));
    say(to, ";\nwhile (");
    say_counter(to, counter);
    say(to, to_zero ? " >= 0) {\n" : " > 0) {\n");
    say_statements(to, count, levels - 1);
    say_counter(to, counter);
    say(to, " = ");
    say_counter(to, counter);
    say(to, " - 1;\n}\n");
}

static void say_choice(generator *to, int levels) {
    say(to, "if (");
    say_expression(to, 2);
    say(to, ") {\n");
    say_statements(to, 1 + (int)below(to, 4), levels - 1);
    say(to, "}");
    if (one_in(to, 2)) {
        say(to, " else {\n");
        say_statements(to, 1 + (int)below(to, 4), levels - 1);
        say(to, "}");
    }
    say(to, "\n");
}

static void say_line(generator *to) {
    uint64_t choice = below(to, 40);
    if (choice < 6) {
        say(to, "print(");
        say_expression(to, 2);
        say(to, ");\n");
    } else if (choice == 6) {
        say(to, "check ");
        say_expression(to, 2);
        say(to, ";\n");
    } else {
        say_variable(to);
        say(to, " = ");
        say_expression(to, 4);
        say(to, ";\n");
    }
}

static void say_statements(generator *to, int count, int levels) {
    for (int i = 0; i < count; i++) {
        uint64_t choice = levels ? below(to, 10) : 10;
        if (choice == 0 && to->counters < 40)
            say_loop(to, 1 + (int)below(to, 5), levels);
        else if (choice < 3)
            say_choice(to, levels);
        else
            say_line(to);
    }
}

char *generate(uint64_t number) {
    generator to = {.state = 0x9e3779b97f4a7c15 * (number + 1)};
    for (int i = 0; i < 8; i++) {
        say(&to, (char[]){(char)('a' + i), 0});
        say(&to, " = ");
        say_leaf(&to);
        say(&to, ";\n");
    }
    if (number % 8 == 7) say_loop(&to, 700, 1);
    say_statements(&to, 4 + (int)below(&to, 24), 3);
    return to.text;
}
