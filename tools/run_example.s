// The start of code that tools/run_example runs: it calls `main`, and ends with its result as the status.
//
// Symbols 0 and 1 change x0 to x4, x8 and the flags, and symbol 2 also what the function changes that it calls.

        .text
        .globl  _start
_start: mov     x29, #0
        mov     x30, #0
        .irp    signal, 4, 5, 7, 8, 11  // SIGILL, SIGTRAP, SIGBUS, SIGFPE, SIGSEGV
        mov     x0, #\signal
        bl      catch
        .endr
        bl      main
leave:  mov     x8, #94                 // exit_group
        svc     #0

// Has the signal in x0 lead to `caught`.
catch:  adrp    x1, action
        add     x1, x1, :lo12:action
        mov     x2, #0
        mov     x3, #8
        mov     x8, #134                // rt_sigaction
        svc     #0
        ret

// A signal came at a place: writes `trap` and the code of the trap that is recorded there, and ends with status
// 132. Where none is recorded it returns, and the signal comes once more, and ends the program.
caught: ldr     x9, [x2, #440]          // the place, in the context of the signal
        adrp    x10, traps
        add     x10, x10, :lo12:traps
        adrp    x11, traps_end
        add     x11, x11, :lo12:traps_end
1:      cmp     x10, x11
        b.hs    2f
        ldp     x12, x13, [x10], #16
        cmp     x12, x9
        b.ne    1b
        mov     x19, x13
        adrp    x0, word
        add     x0, x0, :lo12:word
        mov     x1, #5
        bl      put_bytes
        mov     x0, x19
        bl      put_number
        mov     x0, #132
        b       leave
2:      ret

// Symbol 0: writes x0 in decimal, and a line feed.
        .globl  put_number
put_number:
        sub     sp, sp, #32
        add     x1, sp, #31
        mov     w2, #'\n'
        strb    w2, [x1]
        mov     x3, #10
1:      udiv    x4, x0, x3
        msub    x2, x4, x3, x0
        add     w2, w2, #'0'
        strb    w2, [x1, #-1]!
        mov     x0, x4
        cbnz    x0, 1b
        add     x2, sp, #32
        sub     x2, x2, x1
        mov     x0, #1
        mov     x8, #64                 // write
        svc     #0
        add     sp, sp, #32
        ret

// Symbol 1: writes the x1 bytes at x0.
        .globl  put_bytes
put_bytes:
        mov     x2, x1
        mov     x1, x0
        mov     x0, #1
        mov     x8, #64                 // write
        svc     #0
        ret

// Symbol 2: calls the function at x0 with x1 in x0, in two threads at once, and returns when both have ended.
        .globl  in_two_threads
in_two_threads:
        stp     x29, x30, [sp, #-48]!
        mov     x29, sp
        stp     x19, x20, [sp, #16]
        str     x21, [sp, #32]
        mov     x19, x0
        mov     x20, x1
        adrp    x21, alive
        add     x21, x21, :lo12:alive
        mov     w0, #1
        str     w0, [x21]
        mov     x0, #0x0f00             // CLONE_VM, _FS, _FILES, _SIGHAND, _THREAD, _SYSVSEM, _CHILD_CLEARTID
        movk    x0, #0x25, lsl #16
        adrp    x1, stack_end
        add     x1, x1, :lo12:stack_end
        mov     x2, #0
        mov     x3, #0
        mov     x4, x21
        mov     x8, #220                // clone
        svc     #0
        cbz     x0, 3f
        tbnz    x0, #63, 4f
        mov     x0, x20
        blr     x19
1:      ldar    w2, [x21]               // 0 when the other thread has ended
        cbz     w2, 2f
        mov     x0, x21
        mov     x1, #0                  // FUTEX_WAIT
        mov     x3, #0
        mov     x8, #98                 // futex
        svc     #0
        b       1b
2:      ldr     x21, [sp, #32]
        ldp     x19, x20, [sp, #16]
        ldp     x29, x30, [sp], #48
        ret
3:      mov     x0, x20
        blr     x19
        mov     x0, #0
        mov     x8, #93                 // exit
        svc     #0
4:      mov     x0, #125
        b       leave

        .section .rodata
word:   .ascii  "trap "
        .balign 8
action: .quad   caught, 0x80000004, 0, 0        // SA_SIGINFO, SA_RESETHAND

        .bss
        .balign 16
alive:  .skip   16
        .skip   65536
stack_end:
