/* Reads programs, by recursive descent. */
#include "language.h"
#include <ctype.h>
#include <stdio.h>
#include <stdlib.h>
#include <string.h>

typedef struct {
    const char *name, *at;
    int line;
    bool failed;
    program *read;
} reader;

void *reserve(void *block, size_t size) {
    block = realloc(block, size ? size : 1);
    if (block) return block;
    fprintf(stderr, "out of memory\n");
    exit(1);
}

/* A block of zeros that lives as long as the program that is read: each begins with the address of the one before. */
static void *block_of(reader *reader, size_t size) {
    void **block = memset(reserve(NULL, sizeof(void *) + size), 0, sizeof(void *) + size);
    *block = reader->read->blocks;
    reader->read->blocks = block;
    return block + 1;
}

void free_program(program *read) {
    while (read->blocks) {
        void *next = *(void **)read->blocks;
        free(read->blocks);
        read->blocks = next;
    }
}

/* Tells what is wrong first, and goes to the end of the text, so that each loop ends. */
static void fail(reader *reader, const char *why) {
    if (!reader->failed) fprintf(stderr, "%s:%d: %s\n", reader->name, reader->line, why);
    reader->failed = true;
    reader->at += strlen(reader->at);
}

static void skip_space(reader *reader) {
    for (; isspace((unsigned char)*reader->at) || *reader->at == '#'; reader->at++) {
        if (*reader->at == '#') reader->at += strcspn(reader->at, "\n");
        if (!*reader->at) return;
        if (*reader->at == '\n') reader->line++;
    }
}

static bool is_letter(char at) {
    return isalnum((unsigned char)at) || at == '_';
}

/* Goes over a word where it is next. */
static bool takes(reader *reader, const char *word) {
    skip_space(reader);
    size_t length = strlen(word);
    if (strncmp(reader->at, word, length)) return false;
    if (is_letter(*word) && is_letter(reader->at[length])) return false;
    reader->at += length;
    return true;
}

static void expect(reader *reader, const char *word) {
    if (takes(reader, word)) return;
    char why[64];
    snprintf(why, sizeof why, "`%s` is missing", word);
    fail(reader, why);
}

static expression *expression_of(reader *reader, int kind, int64_t number) {
    expression *made = block_of(reader, sizeof *made);
    made->kind = kind;
    made->line = reader->line;
    made->number = number;
    return made;
}

static expression *read_expression(reader *reader, int level);

/* The place of a variable, which is new where its name is. */
static int variable_of(reader *reader, const char *name, size_t length) {
    program *read = reader->read;
    for (int i = 0; i < read->variables; i++)
        if (strlen(read->names[i]) == length && !memcmp(read->names[i], name, length)) return i;
    if (read->variables == MOST_VARIABLES || length >= sizeof *read->names) {
        fail(reader, "too many variables, or too long a name");
        return 0;
    }
    memcpy(read->names[read->variables], name, length);
    return read->variables++;
}

static expression *read_call(reader *reader, const char *name, size_t length) {
    for (int i = 0; i < c_function_count; i++) {
        if (strlen(c_functions[i].name) != length || memcmp(c_functions[i].name, name, length)) continue;
        expression *call = expression_of(reader, CALL, i);
        for (int k = 0; k < c_functions[i].arity; k++) {
            if (k) expect(reader, ",");
            call->operands[k] = read_expression(reader, 0);
        }
        expect(reader, ")");
        return call;
    }
    fail(reader, "no such function");
    return expression_of(reader, NUMBER, 0);
}

static expression *read_operand(reader *reader) {
    if (takes(reader, "-")) {
        expression *minus = expression_of(reader, BINARY, 0);
        minus->operation = SUBTRACT;
        minus->operands[0] = expression_of(reader, NUMBER, 0);
        minus->operands[1] = read_operand(reader);
        return minus;
    }
    if (takes(reader, "(")) {
        expression *inner = read_expression(reader, 0);
        expect(reader, ")");
        return inner;
    }
    const char *begin = reader->at;
    if (isdigit((unsigned char)*begin)) {
        uint64_t number = 0;
        for (; isdigit((unsigned char)*reader->at); reader->at++) number = 10 * number + (uint64_t)(*reader->at - '0');
        return expression_of(reader, NUMBER, (int64_t)number);
    }
    while (is_letter(*reader->at)) reader->at++;
    size_t length = (size_t)(reader->at - begin);
    if (!length) fail(reader, "an operand is missing");
    if (takes(reader, "(")) return read_call(reader, begin, length);
    return expression_of(reader, VARIABLE, variable_of(reader, begin, length));
}

/* An operator, by its level: those of the highest bind first. */
typedef struct {
    const char *word;
    int level;
    operation operation;
} operator_word;

enum { LEVELS = 4 };

/* The next operator of a level, over which it goes; null where there is none. */
static const operator_word *take_operator(reader *reader, int level) {
    static const operator_word operators[] = {
        /* of two words of which one begins with the other, the longer stands first */
        {"==", 0, EQUAL}, {"!=", 0, NOT_EQUAL},
        {"<=", 1, LESS_OR_EQUAL}, {">=", 1, GREATER_OR_EQUAL}, {"<", 1, LESS}, {">", 1, GREATER},
        {"+", 2, ADD}, {"-", 2, SUBTRACT},
        {"*", 3, MULTIPLY}, {"/", 3, DIVIDE}, {"%", 3, REMAINDER},
    };
    for (size_t i = 0; i < sizeof operators / sizeof *operators; i++)
        if (operators[i].level == level && takes(reader, operators[i].word)) return &operators[i];
    return NULL;
}

static expression *read_expression(reader *reader, int level) {
    if (level == LEVELS) return read_operand(reader);
    expression *left = read_expression(reader, level + 1);
    for (const operator_word *taken; (taken = take_operator(reader, level));) {
        expression *both = expression_of(reader, BINARY, 0);
        both->operation = taken->operation;
        both->operands[0] = left;
        both->operands[1] = read_expression(reader, level + 1);
        left = both;
    }
    return left;
}

int depth_of(const expression *of) {
    int most = 1;
    for (int i = 0; i < MOST_ARGUMENTS; i++) {
        int below = of->operands[i] ? depth_of(of->operands[i]) + i : 0;
        if (below > most) most = below;
    }
    return most;
}

static expression *read_value(reader *reader) {
    expression *value = read_expression(reader, 0);
    if (!reader->failed && depth_of(value) > MOST_DEPTH) fail(reader, "the expression keeps too many values");
    return value;
}

static statement *read_block(reader *reader);

static void read_statement(reader *reader, statement *made) {
    bool is_if = takes(reader, "if");
    if (is_if || takes(reader, "while")) {
        made->kind = is_if ? IF : WHILE;
        expect(reader, "(");
        made->value = read_value(reader);
        expect(reader, ")");
        made->body = read_block(reader);
        if (is_if && takes(reader, "else")) made->otherwise = read_block(reader);
        return;
    }
    made->kind = takes(reader, "check") ? CHECK : EVALUATE;
    made->value = read_value(reader);
    if (made->kind == EVALUATE && made->value->kind == VARIABLE && takes(reader, "=")) {
        made->kind = ASSIGN;
        made->variable = (int)made->value->number;
        made->value = read_value(reader);
    }
    expect(reader, ";");
}

/* Statements up to a closing brace, or up to the end. */
static statement *read_statements(reader *reader, bool is_block) {
    statement *first = NULL, **last = &first;
    for (;;) {
        if (is_block && takes(reader, "}")) return first;
        skip_space(reader);
        if (!*reader->at) {
            if (is_block) fail(reader, "`}` is missing");
            return first;
        }
        statement *made = block_of(reader, sizeof *made);
        made->line = reader->line;
        *last = made;
        last = &made->next;
        read_statement(reader, made);
    }
}

static statement *read_block(reader *reader) {
    expect(reader, "{");
    return read_statements(reader, true);
}

bool read_program(const char *name, const char *text, program *read) {
    memset(read, 0, sizeof *read);
    reader reader = {.name = name, .at = text, .line = 1, .read = read};
    read->first = read_statements(&reader, false);
    return !reader.failed;
}
