/* The assembler of A64 texts as a library for C: docs/LIBRARY.md, "From C".
 *
 * Link liba64_c.a as tools/c_archives makes it. One that `rt lib` has made wants heap.c beside it, or c/liblibc_c.a
 * of the kit, for the functions that take memory by malloc, realloc and free.
 *
 * What the caller owes, and nothing else:
 * - Each pointer is valid for its length, aligned for its type, and not null, also where the length is 0.
 *   Lengths of buffers of structs count structs, not bytes.
 * - No buffer overlaps another buffer or the text, and nothing else writes the text, or uses a buffer, during
 *   a call.
 * - malloc, realloc and free are of one allocator, and align a block to each power of two up to 16 that divides
 *   its size.
 * - No call is made in a signal handler, nor in a forked child of a process with threads.
 *
 * A call keeps nothing: it gives back all memory that it takes, and no pointer is used after it returns.
 */
#ifndef A64_C_H
#define A64_C_H

#include <stdbool.h>
#include <stddef.h>
#include <stdint.h>

#ifdef __cplusplus
extern "C" {
#endif

/* The most bytes that a text may have. */
#define A64_TEXT_LIMIT 16777216

/* How a call ended. `subject` is 0 where nothing is said of it. */
enum {
    A64_DONE = 0,
    A64_TEXT_TOO_LONG = 1,     /* the text has more than A64_TEXT_LIMIT bytes */
    A64_BAD_LINE = 2,          /* subject: the first line, counted from 1, that is no entry */
    A64_BAD_OPERAND = 3,       /* 3 to 6, subject: the item, counted from 0 */
    A64_BAD_MODE = 4,          /* an addressing mode that does not exist */
    A64_SCRATCH_CONFLICT = 5,  /* a scratch register that the item needs is in use */
    A64_UNKNOWN_CONSTANT = 6,
    A64_LABEL_BOUND_TWICE = 7, /* 7, 8 and 10, subject: the label */
    A64_UNBOUND_LABEL = 8,
    A64_TOO_LARGE = 9,         /* the code could reach 2^31 bytes */
    A64_OUT_OF_REACH = 10,     /* a use that can have no veneer may be too far from the label */
    A64_OUT_OF_MEMORY = 11,    /* subject: 1 where the text was read, and each item is right by itself, or may be shown */
    A64_NO_ROOM = 12,          /* of calls with one buffer: `length` is the room that is needed */
    A64_BAD_RANGE = 13,        /* 13 to 16, of a64_audit_words; subject: the range, counted from 0 */
    A64_UNKNOWN_WORD = 14,     /* 14 to 16, subject: the place, in bytes */
    A64_BRANCH_OUT_OF_CODE = 15,
    A64_BRANCH_INTO_DATA = 16
};

/* What calls answer that make one thing, or find one. */
typedef struct {
    int32_t status;   /* one of the above */
    uint64_t subject; /* what is refused or found, as above, and else 0 */
    size_t length;    /* the bytes of what was made at A64_DONE and A64_NO_ROOM, and else 0 */
} a64_answer;

/* Assembles a text, and puts its code at the front of a buffer: words, each with its least byte first.
 *
 * text, text_length: the text in bytes, in the format of docs/FORMAT.md.
 * force: whether islands are forced, as by the program's word `force`.
 * room, room_length: the buffer, in bytes. At A64_DONE the code stands in its first `length` bytes, and what
 *     is behind them is as it was; at each other status all of it is.
 */
a64_answer a64_assemble_text(const uint8_t *text, size_t text_length, bool force,
                             uint8_t *room, size_t room_length);

/* Places are counted in bytes from the start of the code. */

/* A bound label. */
typedef struct {
    uint32_t label; /* its number */
    uint32_t place; /* where it is bound */
} a64_label_place;

/* An island. */
typedef struct {
    uint32_t begin; /* where it begins */
    uint32_t end;   /* the place behind its last byte */
} a64_island;

/* Kinds of relocation: Cranelift's `Reloc`. */
enum {
    A64_RELOC_ARM64_CALL = 0,
    A64_RELOC_ABS8 = 1,
    A64_RELOC_AARCH64_ADR_GOT_PAGE21 = 2,
    A64_RELOC_AARCH64_LD64_GOT_LO12_NC = 3,
    A64_RELOC_AARCH64_ADR_PREL_PG_HI21 = 4,
    A64_RELOC_AARCH64_ADD_ABS_LO12_NC = 5
};

/* A relocation. */
typedef struct {
    uint32_t place;  /* the bytes that it changes */
    uint32_t kind;   /* one of the above */
    uint32_t symbol; /* the number of its symbol */
    int64_t addend;  /* what is added to the symbol */
} a64_relocation;

/* An instruction that may trap. */
typedef struct {
    uint32_t place; /* where it stands */
    uint32_t code;  /* the code of the trap, from 0 to 255 */
} a64_trap;

/* A call that may be patched. */
typedef struct {
    uint32_t place;  /* the place behind it */
    uint32_t length; /* its length in bytes */
} a64_patchable_call;

/* A map of the stack at a call. */
typedef struct {
    uint32_t place; /* the place behind the call */
    uint32_t map;   /* the number of the map */
} a64_stack_map;

/* What a64_assemble_records answers: how much there is of each, whatever room there was for it. All are 0
 * where there is no code. */
typedef struct {
    int32_t status;         /* A64_DONE or a refusal, and never A64_NO_ROOM */
    uint64_t subject;       /* as in a64_answer */
    size_t bytes;           /* bytes of the code */
    size_t items;           /* items */
    size_t labels;          /* bound labels */
    size_t islands;         /* islands */
    uint32_t pool;          /* the place behind the last item, where the pool begins */
    size_t relocations;     /* relocations */
    size_t traps;           /* instructions that may trap */
    size_t calls;           /* calls */
    size_t patchable_calls; /* calls that may be patched */
    size_t stack_maps;      /* maps of the stack */
} a64_counts;

/* Assembles a text, and puts its code and what is recorded of it at the fronts of buffers, in the order of
 * the program's report. Each buffer takes as many as it has room for, from the first, and is as it was behind
 * them; so a count above a buffer's length says that it has not all. Where there is no code all are as they
 * were.
 *
 * text, text_length, force: as of a64_assemble_text.
 * bytes: the code, in bytes.
 * items: the place of each item.
 * calls: the place behind each call.
 * labels, islands, relocations, traps, patchable_calls, stack_maps: their records.
 */
a64_counts a64_assemble_records(const uint8_t *text, size_t text_length, bool force,
                                uint8_t *bytes, size_t bytes_room,
                                uint32_t *items, size_t items_room,
                                a64_label_place *labels, size_t labels_room,
                                a64_island *islands, size_t islands_room,
                                a64_relocation *relocations, size_t relocations_room,
                                a64_trap *traps, size_t traps_room,
                                uint32_t *calls, size_t calls_room,
                                a64_patchable_call *patchable_calls, size_t patchable_calls_room,
                                a64_stack_map *stack_maps, size_t stack_maps_room);

/* Lists a text, and puts the lines at the front of a buffer: assembly text, a line for each item, as the program's
 * `list` writes it. Registers of the text may be virtual.
 *
 * text, text_length, room, room_length: as of a64_assemble_text. Of the statuses A64_BAD_OPERAND and A64_BAD_MODE say
 *     what is wrong with the first item that cannot be shown; A64_SCRATCH_CONFLICT, A64_UNKNOWN_CONSTANT, and those of
 *     labels and of the code's size, do not come.
 */
a64_answer a64_list_text(const uint8_t *text, size_t text_length, uint8_t *room, size_t room_length);

/* Puts the line of a word at the front of a buffer: the fields of its row, as the program's `dis` writes them, without
 * a line feed and without a zero behind it. The status is A64_DONE, A64_NO_ROOM or A64_OUT_OF_MEMORY.
 */
a64_answer a64_show_word(uint32_t word, uint8_t *room, size_t room_length);

/* What a64_read_word answers. */
typedef struct {
    int32_t status; /* A64_DONE, or A64_BAD_LINE where no word has the line */
    uint32_t word;  /* the word, and else 0 */
} a64_word_read;

/* Reads the line of a word, as the program's `undis` does: the word whose line a64_show_word makes so. It takes no
 * memory. */
a64_word_read a64_read_word(const uint8_t *line, size_t line_length);

/* A range of data among words. */
typedef struct {
    uint32_t begin; /* where it begins, in bytes from the first word */
    uint32_t end;   /* the place behind its last byte */
} a64_range;

/* Tells what is wrong first with words, as the program's `audit` does: A64_DONE says that each word outside the ranges
 * is an instruction, or the trap word at the place of a trap, and that each direct branch there stays among the words
 * and outside the ranges. A64_TOO_LARGE says that there are 2^29 words or more.
 *
 * words, words_length: the words, of which the first is at place 0.
 * traps, traps_length: the places at which a trap may stand, in bytes, in any order.
 * ranges, ranges_length: the ranges of data, by place.
 */
a64_answer a64_audit_words(const uint32_t *words, size_t words_length,
                           const uint32_t *traps, size_t traps_length,
                           const a64_range *ranges, size_t ranges_length);

#ifdef __cplusplus
}
#endif
#endif
