# payload.S: where OpenSBI enters the payload, its trap vector, and the ways to U mode and to the
# upper half of the addresses.

        .include "frame.inc"

        .section .text.start, "ax"
        .globl  _start
_start: lla     sp, stack_end
        mv      s0, a0
        clear_bss
        mv      a0, s0                  # the hart's number
        call    payload

# U mode runs on the same stack, so nothing has to be exchanged.
        .text
        .balign 4
        .globl  vector
vector: save
        mv      a0, sp
        call    trapped
        restore
        sret

# void user_calls(uint64_t count): in U mode, count ecalls with a0 from count - 1 down to 0. The
# handler of the last one comes back in S mode.
        .globl  user_calls
user_calls:
        lla     t0, user
        csrw    sepc, t0
        li      t0, 0x100               # SPP
        csrc    sstatus, t0
        sret
user:   addi    a0, a0, -1
        ecall
        bnez    a0, user
        ret

# void run_high(void (*function)(void)): calls it at its address in the upper half, on the stack
# there. It returns to the lower half, which is mapped as well.
        .globl  run_high
run_high:
        addi    sp, sp, -16
        sd      ra, 0(sp)
        li      t0, 0xffffffc000000000
        add     sp, sp, t0
        add     a0, a0, t0
        jalr    a0
        li      t0, 0xffffffc000000000
        sub     sp, sp, t0
        ld      ra, 0(sp)
        addi    sp, sp, 16
        ret
