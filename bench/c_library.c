/* Calls the library a64_c from C: bench/c_library.sh says what is compared.
 *
 * c_library report [force]: the text of the standard input, as the program's report, by a64_assemble_records;
 *     or, where it is refused, the program's line, with status 1. The code has to be that of
 *     a64_assemble_text, and buffers with less room have to hold the same records as far as they go.
 * c_library status N [force]: whether both calls refuse the text with the status N, and write nothing.
 * c_library memory [force]: each allocation of each of the two calls refused in turn. Each has to answer want of
 *     memory, write nothing, and leave no block.
 */
#include "../crates/a64_c/a64_c.h"
#include <stdio.h>
#include <stdlib.h>
#include <string.h>

/* ---- memory: the calls of the library come here, by the linker's --wrap */

void *__real_malloc(size_t);
void *__real_realloc(void *, size_t);
void __real_free(void *);
static bool counts_blocks;
static long allocations, refused, blocks;

static bool refuses(void) {
    return counts_blocks && ++allocations == refused;
}

void *__wrap_malloc(size_t size) {
    void *block = refuses() ? NULL : __real_malloc(size);
    if (counts_blocks && block) blocks++;
    return block;
}

void *__wrap_realloc(void *old, size_t size) {
    void *block = refuses() ? NULL : __real_realloc(old, size);
    if (counts_blocks && !old && block) blocks++;
    return block;
}

void __wrap_free(void *block) {
    if (counts_blocks && block) blocks--;
    __real_free(block);
}

static void start_counting(long refuse) {
    refused = refuse;
    allocations = 0;
    blocks = 0;
    counts_blocks = true;
}

/* ---- buffers */

#define FILL 0xa5

typedef struct {
    size_t bytes, items, labels, islands, relocations, traps, calls, patchable_calls, stack_maps;
} lengths;

typedef struct {
    lengths room;
    uint8_t *bytes;
    uint32_t *items, *calls;
    a64_label_place *labels;
    a64_island *islands;
    a64_relocation *relocations;
    a64_trap *traps;
    a64_patchable_call *patchable_calls;
    a64_stack_map *stack_maps;
} buffers;

static void fail(const char *what) {
    fprintf(stderr, "%s\n", what);
    exit(9);
}

/* A buffer of so many bytes, and some behind it, all of one value. */
static void *buffer_of(size_t size) {
    void *buffer = malloc(size + 64);
    if (!buffer) fail("no memory for a buffer");
    memset(buffer, FILL, size + 64);
    return buffer;
}

static bool is_filled(const void *buffer, size_t from, size_t to) {
    for (size_t i = from; i < to; i++)
        if (((const uint8_t *)buffer)[i] != FILL) return false;
    return true;
}

#define EACH_KIND(DO) \
    DO(bytes) DO(items) DO(labels) DO(islands) DO(relocations) DO(traps) DO(calls) DO(patchable_calls) DO(stack_maps)

static buffers buffers_of(lengths room) {
    buffers made = {.room = room};
#define MAKE(kind) made.kind = buffer_of(room.kind * sizeof *made.kind);
    EACH_KIND(MAKE)
#undef MAKE
    return made;
}

static void give_back(buffers made) {
#define GIVE(kind) free(made.kind);
    EACH_KIND(GIVE)
#undef GIVE
}

static size_t least(size_t a, size_t b) {
    return a < b ? a : b;
}

static lengths lengths_of(a64_counts counts) {
    lengths found = {0};
#define TAKE(kind) found.kind = counts.kind;
    EACH_KIND(TAKE)
#undef TAKE
    return found;
}

/* ---- the calls */

static uint8_t *text;
static size_t text_length;
static bool force;

static a64_counts records_into(buffers to) {
    return a64_assemble_records(text, text_length, force, to.bytes, to.room.bytes, to.items, to.room.items,
                                to.labels, to.room.labels, to.islands, to.room.islands, to.relocations,
                                to.room.relocations, to.traps, to.room.traps, to.calls, to.room.calls,
                                to.patchable_calls, to.room.patchable_calls, to.stack_maps, to.room.stack_maps);
}

static void read_text(void) {
    size_t most = A64_TEXT_LIMIT + 1, got;
    text = malloc(most);
    if (!text) fail("no memory for the text");
    while (text_length < most && (got = fread(text + text_length, 1, most - text_length, stdin)) > 0)
        text_length += got;
}

/* ---- the report */

static const char *const kinds[] = {
    [A64_RELOC_ARM64_CALL] = "Arm64Call",
    [A64_RELOC_ABS8] = "Abs8",
    [A64_RELOC_AARCH64_ADR_GOT_PAGE21] = "Aarch64AdrGotPage21",
    [A64_RELOC_AARCH64_LD64_GOT_LO12_NC] = "Aarch64Ld64GotLo12Nc",
    [A64_RELOC_AARCH64_ADR_PREL_PG_HI21] = "Aarch64AdrPrelPgHi21",
    [A64_RELOC_AARCH64_ADD_ABS_LO12_NC] = "Aarch64AddAbsLo12Nc",
};

static void print_report(a64_counts counts, buffers of) {
    for (size_t i = 0; i < counts.items; i++) printf("item %zu %u\n", i, of.items[i]);
    for (size_t i = 0; i < counts.labels; i++) printf("label L%u %u\n", of.labels[i].label, of.labels[i].place);
    for (size_t i = 0; i < counts.islands; i++) printf("island %u %u\n", of.islands[i].begin, of.islands[i].end);
    printf("pool %u\n", counts.pool);
    for (size_t i = 0; i + 4 <= counts.bytes; i += 4)
        printf("word %zu %02x%02x%02x%02x\n", i, of.bytes[i + 3], of.bytes[i + 2], of.bytes[i + 1], of.bytes[i]);
    for (size_t i = 0; i < counts.relocations; i++) {
        a64_relocation r = of.relocations[i];
        if (r.kind >= sizeof kinds / sizeof *kinds) fail("a relocation has no kind");
        printf("reloc %u %s userextname%u %lld\n", r.place, kinds[r.kind], r.symbol, (long long)r.addend);
    }
    for (size_t i = 0; i < counts.traps; i++) printf("trap %u %u\n", of.traps[i].place, of.traps[i].code);
    for (size_t i = 0; i < counts.calls; i++) printf("call %u\n", of.calls[i]);
    for (size_t i = 0; i < counts.patchable_calls; i++)
        printf("patchable %u %u\n", of.patchable_calls[i].place, of.patchable_calls[i].length);
    for (size_t i = 0; i < counts.stack_maps; i++) printf("map %u %u\n", of.stack_maps[i].place, of.stack_maps[i].map);
}

/* The program's line for a refusal. */
static void print_refusal(int32_t status, uint64_t subject) {
    unsigned long long n = subject;
    switch (status) {
    case A64_TEXT_TOO_LONG: fprintf(stderr, "input too large\n"); break;
    case A64_BAD_LINE: fprintf(stderr, "line %llu: not an entry\n", n); break;
    case A64_BAD_OPERAND: fprintf(stderr, "item %llu: bad operand\n", n); break;
    case A64_BAD_MODE: fprintf(stderr, "item %llu: bad addressing mode\n", n); break;
    case A64_SCRATCH_CONFLICT: fprintf(stderr, "item %llu: scratch register in use\n", n); break;
    case A64_UNKNOWN_CONSTANT: fprintf(stderr, "item %llu: unknown constant\n", n); break;
    case A64_LABEL_BOUND_TWICE: fprintf(stderr, "label L%llu: bound twice\n", n); break;
    case A64_UNBOUND_LABEL: fprintf(stderr, "label L%llu: not bound\n", n); break;
    case A64_TOO_LARGE: fprintf(stderr, "code too large\n"); break;
    case A64_OUT_OF_REACH: fprintf(stderr, "label L%llu: out of reach\n", n); break;
    case A64_OUT_OF_MEMORY: fprintf(stderr, "out of memory\n"); break;
    default: fail("an unknown status");
    }
}

/* Whether relocations are the same: not the bytes between their fields, of which nothing is said. */
static bool are_same_relocations(const a64_relocation *a, const a64_relocation *b, size_t count) {
    for (size_t i = 0; i < count; i++)
        if (a[i].place != b[i].place || a[i].kind != b[i].kind || a[i].symbol != b[i].symbol ||
            a[i].addend != b[i].addend)
            return false;
    return true;
}

/* Buffers with less room hold the same from the first on, and are as they were behind it. */
static void check_smaller(a64_counts counts, buffers whole, lengths room) {
    buffers part = buffers_of(room);
    a64_counts again = records_into(part);
#define SAME(field) \
    if (again.field != counts.field) fail("other counts with less room: " #field);
    EACH_KIND(SAME) SAME(status) SAME(subject) SAME(pool)
#undef SAME
#define COMPARE(kind)                                                                           \
    {                                                                                           \
        size_t size = least(room.kind, counts.kind) * sizeof *part.kind;                        \
        if ((void *)part.kind != (void *)part.relocations && memcmp(part.kind, whole.kind, size)) \
            fail("other records with less room: " #kind);                                       \
        if (!is_filled(part.kind, size, room.kind * sizeof *part.kind + 64))                    \
            fail("written behind the records: " #kind);                                         \
    }
    EACH_KIND(COMPARE)
#undef COMPARE
    if (!are_same_relocations(part.relocations, whole.relocations, least(room.relocations, counts.relocations)))
        fail("other records with less room: relocations");
    give_back(part);
}

/* a64_assemble_text gives the same code where there is room, and writes nothing where there is none. */
static void check_text(a64_counts counts, buffers whole) {
    for (int less = 0; less < 2; less++) {
        if (counts.bytes < (size_t)less) continue;
        size_t room = counts.bytes - less;
        uint8_t *code = buffer_of(room);
        a64_answer answer = a64_assemble_text(text, text_length, force, code, room);
        if (answer.length != counts.bytes) fail("another length");
        if (answer.status != (less ? A64_NO_ROOM : A64_DONE)) fail("another status");
        if (!less && memcmp(code, whole.bytes, room)) fail("other code");
        if (!is_filled(code, less ? 0 : room, room + 64)) fail("written behind the code");
        free(code);
    }
}

static void check_unwritten(buffers to) {
#define UNWRITTEN(kind) \
    if (!is_filled(to.kind, 0, to.room.kind * sizeof *to.kind + 64)) fail("written without code: " #kind);
    EACH_KIND(UNWRITTEN)
#undef UNWRITTEN
}

/* Both calls refuse the text alike, and write nothing, whatever room there is. */
static a64_counts check_refused(void) {
    const size_t some = 64;
    lengths room = {some, some, some, some, some, some, some, some, some};
    buffers to = buffers_of(room);
    a64_counts counts = records_into(to);
    if (counts.status == A64_DONE) fail("the text is not refused");
    lengths found = lengths_of(counts), nothing = {0};
    if (memcmp(&found, &nothing, sizeof found) || counts.pool) fail("a refusal counts records");
    a64_answer answer = a64_assemble_text(text, text_length, force, to.bytes, some);
    if (answer.status != counts.status || answer.subject != counts.subject || answer.length)
        fail("the two calls answer otherwise");
    check_unwritten(to);
    give_back(to);
    return counts;
}

static int report(void) {
    buffers none = buffers_of((lengths){0});
    a64_counts counts = records_into(none);
    check_unwritten(none);
    give_back(none);
    if (counts.status != A64_DONE) {
        counts = check_refused();
        print_refusal(counts.status, counts.subject);
        return 1;
    }
    lengths all = lengths_of(counts), half = all;
#define HALVE(kind) half.kind /= 2;
    EACH_KIND(HALVE)
#undef HALVE
    buffers whole = buffers_of(all);
    records_into(whole);
    check_smaller(counts, whole, all);
    check_smaller(counts, whole, half);
    lengths more = all;
#define ADD(kind) more.kind += 3;
    EACH_KIND(ADD)
#undef ADD
    check_smaller(counts, whole, more);
    check_text(counts, whole);
    print_report(counts, whole);
    give_back(whole);
    return 0;
}

/* ---- want of memory */

/* One of the two calls, with an allocation refused, or none for 0; its status. */
static int32_t status_of(bool records, buffers to, long refuse) {
    start_counting(refuse);
    int32_t status = records ? records_into(to).status
                             : a64_assemble_text(text, text_length, force, to.bytes, to.room.bytes).status;
    counts_blocks = false;
    if (blocks) fail("a call left blocks");
    return status;
}

static int memory(void) {
    buffers none = buffers_of((lengths){0});
    a64_counts counts = records_into(none);
    give_back(none);
    if (counts.status != A64_DONE) return 1;
    long tried = 0;
    for (int records = 0; records < 2; records++) {
        buffers to = buffers_of(lengths_of(counts));
        if (status_of(records, to, 0) != A64_DONE) fail("refused with enough memory");
        long all = allocations;
        if (!all) fail("no allocation is seen");
        give_back(to);
        to = buffers_of(lengths_of(counts));
        for (long refuse = 1; refuse <= all; refuse++) {
            if (status_of(records, to, refuse) != A64_OUT_OF_MEMORY) fail("no want of memory is told");
            check_unwritten(to);
        }
        give_back(to);
        tried += all;
    }
    printf("%ld\n", tried);
    return 0;
}

int main(int count, char **words) {
    if (count < 2) fail("usage: c_library report|status N|memory [force]");
    bool is_status = !strcmp(words[1], "status");
    force = !strcmp(words[count - 1], "force");
    read_text();
    if (is_status) {
        if (count < 3 || check_refused().status != atoi(words[2])) fail("refused with another status");
        return 0;
    }
    return strcmp(words[1], "memory") ? report() : memory();
}
