/* What a64_page stands on in a WebAssembly module: memory, and the exports that a page calls.
 *
 * tools/page compiles this file for wasm64 and links it with a64_page. The module asks nothing of its host. A page asks
 * for room for a text by `place`, writes the text there, and calls `run`; then the answer stands where `run` says, and
 * `status` and `length` speak of it, until the next `place`, which takes all memory back.
 */
typedef unsigned char byte;
typedef unsigned long long number;

/* What came of asking for memory: whether there is a block, and the block. */
typedef struct {
    number found;
    byte *block;
} tried;

/* What a64_page_run answers; the lowest 32 bits of the first are the status. */
typedef struct {
    number status;
    number length;
} answer;

tried rattle_alloc(number size, number alignment);
tried rattle_realloc(byte *block, number kept, number size, number alignment);
void rattle_dealloc(byte *block);
answer a64_page_run(unsigned command, _Bool force, const byte *text, number length, byte *room, number size);

#define EXPORTED(name) __attribute__((export_name(name)))

/* The alignment of all blocks, and the size of a page of memory. */
enum { ALIGNMENT = 16, PAGE = 65536 };

/* Where free memory begins: blocks stand one behind another, and only the last of them is ever made longer in its place
 * or given back. */
extern byte __heap_base;
static byte *unused;
static byte *last;
static byte *text;
static answer answered;

/* Whether the memory of the module reaches so far, which it is made to, if it can be. */
static _Bool reaches(number end) {
    number size = __builtin_wasm_memory_size(0) * PAGE;
    if (end <= size) {
        return 1;
    }
    return __builtin_wasm_memory_grow(0, (end - size + PAGE - 1) / PAGE) != (number)-1;
}

/* Makes the last block one from here on of so many bytes, if there is memory. A size is below 2^63. */
static tried placed(byte *block, number size) {
    number end = (number)block + size;
    if (!reaches(end)) {
        return (tried){0, &__heap_base};
    }
    last = block;
    unused = (byte *)((end + ALIGNMENT - 1) / ALIGNMENT * ALIGNMENT);
    return (tried){1, block};
}

/* A new block of so many bytes. */
tried rattle_alloc(number size, number alignment) {
    (void)alignment;
    return placed(unused, size);
}

/* The block with another size. Its first bytes, of which `kept` count, stay as they are. Where there is no memory the
 * block is as it was. */
tried rattle_realloc(byte *block, number kept, number size, number alignment) {
    if (block == last) {
        return placed(block, size);
    }
    tried made = rattle_alloc(size, alignment);
    if (made.found) {
        __builtin_memcpy(made.block, block, kept < size ? kept : size);
    }
    return made;
}

/* Gives a block back, where it is the last. */
void rattle_dealloc(byte *block) {
    if (block == last) {
        unused = last;
        last = 0;
    }
}

/* Takes all memory back. Answers where a text of so many bytes is to be put, or 0 where there is no memory for it. */
EXPORTED("place") byte *place(number size) {
    number start = (number)&__heap_base;
    unused = (byte *)((start + ALIGNMENT - 1) / ALIGNMENT * ALIGNMENT);
    tried made = rattle_alloc(size, ALIGNMENT);
    text = made.found ? made.block : 0;
    return text;
}

/* Runs a command over the text of so many bytes that was put there. Answers where the answer stands, in so much room,
 * or 0 where there is no memory for that room. */
EXPORTED("run") byte *run(unsigned command, unsigned force, number length, number size) {
    tried room = rattle_alloc(size, ALIGNMENT);
    if (!room.found) {
        return 0;
    }
    answered = a64_page_run(command, force != 0, text, length, room.block, size);
    return room.block;
}

/* The status of the run. */
EXPORTED("status") unsigned status(void) {
    return (unsigned)answered.status;
}

/* How many bytes the answer has, which may be more than there was room for. */
EXPORTED("length") number length(void) {
    return answered.length;
}
