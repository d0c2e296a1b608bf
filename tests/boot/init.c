/* init.c: the first program of Linux's user space, and the only one: it prints, sleeps on the timer
 * and powers off. It is linked with nothing, and starts with the kernel's own /dev/console. */

enum { WRITE = 64, NANOSLEEP = 101, REBOOT = 142 };

static long call(long number, long first, long second, long third)
{
    register long a0 __asm__("a0") = first;
    register long a1 __asm__("a1") = second;
    register long a2 __asm__("a2") = third;
    register long a7 __asm__("a7") = number;
    __asm__ volatile("ecall" : "+r"(a0) : "r"(a1), "r"(a2), "r"(a7) : "memory");
    return a0;
}

#define SAY(text) call(WRITE, 1, (long)(text), sizeof(text) - 1)

void _start(void);
void _start(void)
{
    static const long fifty_ms[2] = {0, 50000000};
    char slept[] = "init: slept 0 times\n";

    SAY("init: user space runs\n");
    for (slept[12] = '1'; slept[12] <= '5'; slept[12]++) {
        if (call(NANOSLEEP, (long)fifty_ms, 0, 0) != 0)
            SAY("init: nanosleep failed\n");
        SAY(slept);
    }
    call(REBOOT, 0xfee1dead, 0x28121969, 0x4321fedc); /* to power off */
    SAY("init: the power stays on\n");
    for (;;)
        continue;
}
