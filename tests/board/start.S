# start.S: where the board begins, in machine mode: one hart, its stack, memory cleared, and the
# addresses in a position-independent image mended for where it lies; then main, and power off with
# what it gave.

        .section .text.start, "ax"
        .globl  _start
_start:
        csrr    t0, mhartid             # a trap outside machine mode
        bnez    t0, wait                # the others have nothing to do
        lla     t0, on_trap
        csrw    mtvec, t0
        lla     sp, stack_end
        lla     t0, bss_start
        lla     t1, bss_end
clear:  bgeu    t0, t1, mend
        sd      zero, 0(t0)
        addi    t0, t0, 8
        j       clear

        # Such an image is linked for address 0. In others the table is empty.
mend:   lla     t0, mended_start
        lla     t1, mended_end
        lla     t2, _start
        li      t3, 3                   # R_RISCV_RELATIVE
next:   bgeu    t0, t1, run
        ld      t4, 8(t0)               # the kind
        bne     t4, t3, unknown         # no other can be mended here
        ld      t4, 0(t0)               # where the address stands
        ld      t5, 16(t0)              # what it is of
        add     t4, t4, t2
        add     t5, t5, t2
        sd      t5, 0(t4)
        addi    t0, t0, 24
        j       next

run:    li      a0, 0                   # no words of a command
        li      a1, 0
        call    main
        call    board_off

unknown:
        lla     a0, of_unknown
        call    board_say
        li      a0, 1
        call    board_off

        .balign 4
on_trap:
        csrr    a0, mcause
        csrr    a1, mepc
        csrr    a2, mtval
        lla     sp, stack_end
        call    board_trapped

wait:   wfi
        j       wait

        .section .rodata
of_unknown:
        .string "a relocation that start.S doesn't know\n"
