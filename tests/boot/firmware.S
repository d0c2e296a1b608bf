# firmware.S: where the monitor enters the firmware, its trap vectors, the way to S and U, and the
# vector of S.

        .include "frame.inc"

        .section .text.start, "ax"
        .globl  _start
_start: lla     sp, stack_end
        clear_bss
        call    firmware

# Each entry hands on its own number: the one vector of mode Direct has 16, more than all others. It
# is at no multiple of 8, which a base needn't be, and what stands there is no instruction.
        .text
        .balign 8
        .4byte  0
        .globl  direct
direct: save
        li      a1, 16
        j       common

        .balign 256
        .globl  vectors
vectors:
        .option push
        .option norvc
        .irp    n, 0,1,2,3,4,5,6,7,8,9,10,11
        j       entry_\n
        .endr
        .option pop
        .irp    n, 0,1,2,3,4,5,6,7,8,9,10,11
entry_\n:
        save
        li      a1, \n
        j       common
        .endr

common: mv      a0, sp
        call    trapped
        bnez    a0, come_back
        restore
        mret

# What a C function must find as it was.
        .macro  save_callers
        addi    sp, sp, -112
        .irp    n, 0,1,2,3,4,5,6,7,8,9,10,11
        sd      s\n, 8*\n(sp)
        .endr
        sd      ra, 96(sp)
        .endm

        .macro  restore_callers
        .irp    n, 0,1,2,3,4,5,6,7,8,9,10,11
        ld      s\n, 8*\n(sp)
        .endr
        ld      ra, 96(sp)
        addi    sp, sp, 112
        .endm

# void go_below(uint64_t mode, uint64_t pc): the code there runs on this stack, and its first trap
# into M comes back here.
        .globl  go_below
go_below:
        save_callers
        lla     t0, above
        sd      sp, 0(t0)
        csrw    mepc, a1
        li      t0, 0x1800              # MPP
        csrc    mstatus, t0
        slli    a0, a0, 11
        csrs    mstatus, a0
        mret

come_back:
        ld      sp, above
        restore_callers
        ret

# uint64_t changed_registers(void): each register but sp gets a value of its own, and after an
# instruction that the monitor does, those are counted that have another.
        .globl  changed_registers
changed_registers:
        save_callers
        .irp    n, 1, 3,4,5,6,7,8,9,10,11,12,13,14,15,16,17,18,19,20,21,22,23,24,25,26,27,28,29,30,31
        li      x\n, \n * 0x0101010101010101
        .endr
        csrw    mscratch, x31
        save
        mv      a0, sp
        call    count_changed
        addi    sp, sp, 256
        restore_callers
        ret

# What traps into S tells M its cause.
        .balign 4
        .globl  vector_below
vector_below:
        csrr    a0, scause
        ecall

        .bss
        .balign 8
above:  .space  8
