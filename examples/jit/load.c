/* From a file of items to code that runs. */
#define _GNU_SOURCE /* of a signal its place, of memory MAP_ANONYMOUS */
#include "compile.h"
#include <a64_c.h>
#include <setjmp.h>
#include <signal.h>
#include <stdio.h>
#include <stdlib.h>
#include <string.h>
#include <sys/mman.h>
#include <time.h>
#include <unistd.h>

double seconds(void) {
    struct timespec now;
    clock_gettime(CLOCK_PROCESS_CPUTIME_ID, &now);
    return (double)now.tv_sec + 1e-9 * (double)now.tv_nsec;
}

/* ---- assembling */

/* Code and what is recorded of it, as the library gives it. */
typedef struct {
    a64_counts counts;
    uint8_t *bytes;
    uint32_t *places;
    a64_relocation *relocations;
    a64_trap *traps;
} assembled;

static a64_counts assemble_into(const items *made, bool force, const assembled *to, a64_counts room) {
    /* What this program asks nothing of has no room: its buffer may be any address. */
    uint32_t number;
    a64_label_place label;
    a64_island island;
    a64_patchable_call patchable;
    a64_stack_map map;
    return a64_assemble_records((const uint8_t *)made->text, made->length, force, to->bytes, room.bytes,
                                to->places, room.items, &label, 0, &island, 0, to->relocations, room.relocations,
                                to->traps, room.traps, &number, 0, &patchable, 0, &map, 0);
}

static void reserve_all(assembled *to, a64_counts room) {
    to->bytes = reserve(to->bytes, room.bytes);
    to->places = reserve(to->places, room.items * sizeof *to->places);
    to->relocations = reserve(to->relocations, room.relocations * sizeof *to->relocations);
    to->traps = reserve(to->traps, room.traps * sizeof *to->traps);
}

/* Assembles items. The room for bytes is a guess, and where it was too little they are assembled again; of the rest
 * the number is known: the relocations are those of the calls, and of the address of the variables. */
static bool assemble(const items *made, bool force, assembled *to) {
    *to = (assembled){.bytes = NULL};
    a64_counts room = {.bytes = 12 * made->items + 1024, .items = made->items, .relocations = made->calls + 1,
                       .traps = made->test_count};
    for (;;) {
        reserve_all(to, room);
        to->counts = assemble_into(made, force, to, room);
        if (to->counts.status != A64_DONE) {
            fprintf(stderr, "refused: status %d, %llu\n", to->counts.status, (unsigned long long)to->counts.subject);
            return false;
        }
        if (to->counts.bytes <= room.bytes) return true;
        room.bytes = to->counts.bytes;
    }
}

static void free_assembled(assembled *to) {
    free(to->bytes);
    free(to->places);
    free(to->relocations);
    free(to->traps);
}

/* ---- placing */

/* A thunk: `ldr x16, #8` and `br x16`, which jump to the address behind them. A call of the code reaches 128 MiB, and a
 * function of this program may stand anywhere. */
static const uint32_t load_of_address = 0x58000050, jump_to_address = 0xd61f0200;
enum { THUNK_SIZE = 16 };

static void put_word(uint8_t *at, uint32_t word) {
    for (int i = 0; i < 4; i++) at[i] = (uint8_t)(word >> 8 * i);
}

static uint32_t word_at(const uint8_t *at) {
    return (uint32_t)at[0] | (uint32_t)at[1] << 8 | (uint32_t)at[2] << 16 | (uint32_t)at[3] << 24;
}

static void put_address(uint8_t *at, uint64_t address) {
    put_word(at, (uint32_t)address);
    put_word(at + 4, (uint32_t)(address >> 32));
}

static void put_thunks(uint8_t *at) {
    for (int i = 0; i < c_function_count; i++, at += THUNK_SIZE) {
        put_word(at, load_of_address);
        put_word(at + 4, jump_to_address);
        put_address(at + 8, (uint64_t)(uintptr_t)c_functions[i].call);
    }
}

/* Puts an address, or the distance to a thunk, where a relocation asks for it. */
static bool relocate(const code *loaded, a64_relocation relocation, int64_t *variables) {
    uint8_t *at = loaded->memory + relocation.place;
    if (relocation.kind == A64_RELOC_ABS8 && relocation.symbol == VARIABLES_SYMBOL) {
        put_address(at, (uint64_t)(uintptr_t)variables + (uint64_t)relocation.addend);
        return true;
    }
    if (relocation.kind != A64_RELOC_ARM64_CALL || relocation.symbol < FIRST_FUNCTION_SYMBOL) return false;
    uint8_t *thunk = loaded->thunks + THUNK_SIZE * (relocation.symbol - FIRST_FUNCTION_SYMBOL);
    int64_t words = (thunk - at) / 4;
    if (words >= 1 << 25) return false;
    put_word(at, (word_at(at) & 0xfc000000) | ((uint32_t)words & 0x03ffffff));
    return true;
}

/* The reason of the trap at a place. The library gives traps by place. */
static error_code reason_at(const assembled *from, uint32_t place) {
    size_t low = 0, high = from->counts.traps;
    while (low < high) {
        size_t middle = low + (high - low) / 2;
        if (from->traps[middle].place == place) return (error_code)from->traps[middle].code;
        if (from->traps[middle].place < place) low = middle + 1;
        else high = middle;
    }
    return NO_ERROR;
}

/* Where the code traps, with the line: the branch of each test leads to a trap word of its own. */
static void find_places(const items *made, const assembled *from, code *loaded) {
    loaded->places = reserve(NULL, made->test_count * sizeof *loaded->places);
    for (size_t i = 0; i < made->test_count; i++) {
        uint32_t place = from->places[made->tests[i].item];
        int32_t words = (int32_t)(word_at(from->bytes + place) << 8) >> 13; /* bits 5 to 23, with their sign */
        uint32_t trap = place + 4 * (uint32_t)words;
        loaded->places[i].place = (uintptr_t)loaded->memory + trap;
        loaded->places[i].error = reason_at(from, trap);
        loaded->places[i].line = made->tests[i].line;
    }
}

/* Copies code into fresh memory, applies the relocations, and lets it be executed, no longer written. */
static bool place_code(const items *made, const assembled *from, int64_t *variables, code *loaded) {
    size_t page = (size_t)sysconf(_SC_PAGESIZE), front = (from->counts.bytes + 15) / 16 * 16;
    loaded->size = (front + THUNK_SIZE * (size_t)c_function_count + page - 1) / page * page;
    loaded->memory = mmap(NULL, loaded->size, PROT_READ | PROT_WRITE, MAP_PRIVATE | MAP_ANONYMOUS, -1, 0);
    if (loaded->memory == MAP_FAILED) return false;
    memcpy(loaded->memory, from->bytes, from->counts.bytes);
    loaded->thunks = loaded->memory + front;
    put_thunks(loaded->thunks);
    for (size_t i = 0; i < from->counts.relocations; i++)
        if (!relocate(loaded, from->relocations[i], variables)) return false;
    find_places(made, from, loaded);
    if (mprotect(loaded->memory, loaded->size, PROT_READ | PROT_EXEC)) return false;
    __builtin___clear_cache((char *)loaded->memory, (char *)loaded->memory + loaded->size);
    return true;
}

bool load(const items *made, bool force, int64_t *variables, code *loaded) {
    *loaded = (code){.memory = MAP_FAILED};
    assembled from;
    double begin = seconds();
    bool is_good = assemble(made, force, &from);
    double middle = seconds();
    if (is_good && !place_code(made, &from, variables, loaded)) {
        fprintf(stderr, "the code cannot be placed\n");
        is_good = false;
    }
    loaded->assembling = middle - begin;
    loaded->placing = seconds() - middle;
    loaded->bytes = from.counts.bytes;
    loaded->islands = from.counts.islands;
    loaded->relocations = from.counts.relocations;
    loaded->traps = from.counts.traps;
    loaded->test_count = made->test_count;
    free_assembled(&from);
    return is_good;
}

void unload(code *loaded) {
    if (loaded->memory != MAP_FAILED) munmap(loaded->memory, loaded->size);
    free(loaded->places);
}

/* ---- running */

static sigjmp_buf trapped;
static volatile uintptr_t trap_place;

/* A trap word is no instruction: the signal says where it stands. */
static void on_trap(int signal, siginfo_t *about, void *unused) {
    (void)signal, (void)unused;
    trap_place = (uintptr_t)about->si_addr;
    siglongjmp(trapped, 1);
}

/* Tells which error a trap is. One that no test leads to is none of a program's. */
static void take_error(const code *loaded, outcome *left) {
    for (size_t i = 0; i < loaded->test_count; i++) {
        if (loaded->places[i].place != trap_place) continue;
        left->error = loaded->places[i].error;
        left->line = loaded->places[i].line;
        return;
    }
    fprintf(stderr, "a trap at no test\n");
    exit(1);
}

void run(const code *loaded, outcome *left) {
    struct sigaction action = {.sa_flags = SA_SIGINFO}, before;
    action.sa_sigaction = on_trap;
    sigaction(SIGILL, &action, &before);
    printing = left;
    if (!sigsetjmp(trapped, 1)) {
        void (*function)(void);
        memcpy(&function, &loaded->memory, sizeof function);
        function();
    } else {
        take_error(loaded, left);
    }
    sigaction(SIGILL, &before, NULL);
}
