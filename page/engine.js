"use strict";
/* The module: runs a command of the program over a text. */

/* The commands, each at its number. */
const COMMANDS = ["asm", "list", "roles", "audit", "dis", "undis", "link", "stubs"];

/* How much room there is for an answer at first, in bytes. */
const FIRST_ROOM = 1 << 18;

/* The statuses at which memory is missing. */
const WANT_OF_MEMORY = { status: 5, text: "out of memory\n" };

class Engine {
  /* The bytes are those of a module. */
  constructor(bytes) {
    this.module = new WebAssembly.Module(bytes);
    this.start();
  }

  /* A new instance, with memory of its own. */
  start() {
    this.exports = new WebAssembly.Instance(this.module).exports;
  }

  /* One run, with so much room for the answer. */
  tried(number, force, bytes, room) {
    const { memory, place, run, status, length } = this.exports;
    const at = place(BigInt(bytes.length));
    if (at === 0n) return { status: 5, length: 0, found: null };
    new Uint8Array(memory.buffer).set(bytes, Number(at));
    const found = run(number, force ? 1 : 0, BigInt(bytes.length), BigInt(room));
    if (found === 0n) return { status: 5, length: 0, found: null };
    return { status: status(), length: Number(length()), found: Number(found) };
  }

  /* The status with which the program ends for a command over bytes, and what it writes: to its standard output at
   * status 0, and else to its standard error. */
  runBytes(command, force, bytes) {
    try {
      const number = COMMANDS.indexOf(command);
      let room = FIRST_ROOM;
      let answer = this.tried(number, force, bytes, room);
      if (answer.length > room) {
        room = answer.length;
        answer = this.tried(number, force, bytes, room);
      }
      if (answer.found === null) return WANT_OF_MEMORY;
      const made = new Uint8Array(this.exports.memory.buffer, answer.found, answer.length);
      return { status: answer.status, text: new TextDecoder().decode(made) };
    } catch (error) {
      /* A trap is want of stack: what it left in memory is not used again. */
      if (!(error instanceof WebAssembly.RuntimeError)) throw error;
      this.start();
      return WANT_OF_MEMORY;
    }
  }

  /* The same over a text. */
  run(command, force, text) {
    return this.runBytes(command, force, new TextEncoder().encode(text));
  }
}

/* The bytes that a text in base64 is. */
function bytesOf(base64) {
  const text = atob(base64);
  return Uint8Array.from(text, (letter) => letter.charCodeAt(0));
}
