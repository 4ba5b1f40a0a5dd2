// What tools/run_example makes of stubs: code at the address of each, a jump there through the stub, and back. Behind it
// the general registers but x16 are compared, sp and the flags. The status is 0, or 1 and the number of the first stub behind which
// one differs.

        // Puts code at the address of a stub, and jumps there through the stub, which stands at a place.
        .macro  try number, place, address
        ldr     x0, =\address
        adr     x1, back_\number
        bl      land
        movz    x0, #0xa000, lsl #16    // N and C
        msr     nzcv, x0
        adrp    x16, values
        add     x16, x16, :lo12:values
        .irp    n, 0, 1, 2, 3, 4, 5, 6, 7, 8, 9, 10, 11, 12, 13, 14, 15, 17, 18, 19, 20, 21, 22, 23, 24, 25, 26, 27, 28, 29, 30
        ldr     x\n, [x16, #8 * \n]
        .endr
        b       stubs + \place
back_\number:
        str     x0, [sp, #-256]!
        .irp    n, 1, 2, 3, 4, 5, 6, 7, 8, 9, 10, 11, 12, 13, 14, 15, 17, 18, 19, 20, 21, 22, 23, 24, 25, 26, 27, 28, 29, 30
        str     x\n, [sp, #8 * \n]
        .endr
        mrs     x0, nzcv
        mov     x1, #\number
        bl      compare
        add     sp, sp, #256
        .endm

        // All stubs were tried.
        .macro  last
        mov     x0, #0
        b       leave
        .ltorg
        .endm

        // Puts code at x0 that goes back to x1.
        .text
land:   mov     x19, x0
        mov     x20, x1
        and     x0, x19, #-4096
        mov     x1, #8192
        mov     x2, #7                  // PROT_READ, _WRITE, _EXEC
        mov     x3, #0x32               // MAP_PRIVATE, _FIXED, _ANONYMOUS
        mov     x4, #-1
        mov     x5, #0
        mov     x8, #222                // mmap
        svc     #0
        tbnz    x0, #63, leave
        ldr     x2, landing
        stp     x2, x20, [x19]
        dc      cvau, x19
        dsb     ish
        ic      ivau, x19
        dsb     ish
        isb
        ret
        .balign 8
landing:
        ldr     x16, . + 8
        br      x16

        // Compares the flags in x0, and what stands at sp, with what there was; x1 is the number of the stub.
        .text
compare:
        add     x1, x1, #1
        movz    x2, #0xa000, lsl #16
        cmp     x0, x2
        b.ne    differs
        adrp    x2, values
        add     x2, x2, :lo12:values
        ldr     x3, [x2, #8 * 31]
        mov     x4, sp
        cmp     x3, x4
        b.ne    differs
        .irp    n, 0, 1, 2, 3, 4, 5, 6, 7, 8, 9, 10, 11, 12, 13, 14, 15, 17, 18, 19, 20, 21, 22, 23, 24, 25, 26, 27, 28, 29, 30
        ldr     x3, [x2, #8 * \n]
        ldr     x4, [sp, #8 * \n]
        cmp     x3, x4
        b.ne    differs
        .endr
        ret
differs:
        mov     x0, x1
        b       leave

        // No trap is recorded.
        .section .rodata
        .globl  traps, traps_end
traps:
traps_end:

        // The values that the registers get, and behind them where sp is when they are compared.
        .data
        .balign 8
values: .irp    n, 0, 1, 2, 3, 4, 5, 6, 7, 8, 9, 10, 11, 12, 13, 14, 15, 16, 17, 18, 19, 20, 21, 22, 23, 24, 25, 26, 27, 28, 29, 30
        .quad   0x0123456789abcde0 + 0x1000100010001 * \n
        .endr
        .quad   0

        .text
        .globl  main
main:   sub     x0, sp, #256
        adrp    x1, values
        add     x1, x1, :lo12:values
        str     x0, [x1, #8 * 31]
