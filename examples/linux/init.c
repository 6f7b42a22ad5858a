/* The first process of the guest: reads the match device by a compressed lw and by lwu from user mode, says what it read, and powers off. It
 * is built with compressed instructions, as Debian's own programs are: where the hart leaves htinst 0, its c.lw and c.sd are fetched. */
typedef unsigned long u64;

static long sys(long number, u64 x0, u64 x1, u64 x2, u64 x3, u64 x4, u64 x5) {
    register u64 a0 asm("a0") = x0, a1 asm("a1") = x1, a2 asm("a2") = x2, a3 asm("a3") = x3, a4 asm("a4") = x4, a5 asm("a5") = x5,
                 a7 asm("a7") = number;
    asm volatile("ecall" : "+r"(a0) : "r"(a1), "r"(a2), "r"(a3), "r"(a4), "r"(a5), "r"(a7) : "memory");
    return (long)a0;
}
enum { MKNODAT = 33, OPENAT = 56, WRITE = 64, REBOOT = 142, MMAP = 222 };

static long device_file(const char *name, u64 number) { /* made and opened */
    sys(MKNODAT, -100, (u64)name, 0020600, number, 0, 0);
    return sys(OPENAT, -100, (u64)name, 2 | 04010000, 0, 0, 0); /* O_RDWR | O_SYNC */
}

static char line[80], *end = line;
static void text(const char *s) {
    while (*s) *end++ = *s++;
}
static void hex(u64 n) {
    for (int shift = 60; shift >= 0; shift -= 4) *end++ = "0123456789abcdef"[n >> shift & 15];
}

void _start(void) {
    long log = device_file("/kmsg", 1 << 8 | 11), memory = device_file("/mem", 1 << 8 | 1);
    long at = sys(MMAP, 0, 4096, 3, 1, (u64)memory, 0x10000000);
    if (at < 0 && at > -4096) text("init: FAIL no device, error "), hex((u64)-at);
    else {
        register u64 device asm("a5") = (u64)at, candidate asm("a4") = 0xefeeddccbbaa9988, lw asm("a3"); /* of x8 to x15, as c.lw and c.sd ask */
        u64 lwu, match;
        asm volatile("c.lw %0, 0(%1)" : "=r"(lw) : "r"(device) : "memory");
        asm volatile("lwu %0, 0(%1)" : "=r"(lwu) : "r"(device) : "memory");
        asm volatile("c.sd %1, 0x20(%2)\n lbu %0, 0x28(%2)" : "=&r"(match) : "r"(candidate), "r"(device) : "memory");
        text("init: lw "), hex(lw), text(" lwu "), hex(lwu), text(match == 1 ? " a match" : " no match");
    }
    text("\n"), sys(WRITE, (u64)log, (u64)line, (u64)(end - line), 0, 0, 0);
    sys(REBOOT, 0xfee1dead, 672274793, 0x4321fedc, 0, 0, 0); /* power off */
    for (;;) ;
}
