/* The firmware below, by SBI, and what a freestanding environment owes the compiler. */
#include "hypervisor.h"

u64 firmware(u64 eid, u64 fid, const u64 *args, u64 *value) {
    register u64 a0 asm("a0") = args[0], a1 asm("a1") = args[1], a2 asm("a2") = args[2], a3 asm("a3") = args[3],
                 a4 asm("a4") = args[4], a5 asm("a5") = args[5], a6 asm("a6") = fid, a7 asm("a7") = eid;
    asm volatile("ecall" : "+r"(a0), "+r"(a1) : "r"(a2), "r"(a3), "r"(a4), "r"(a5), "r"(a6), "r"(a7) : "memory");
    *value = a1;
    return a0;
}

void say(const char *text) {
    for (u64 unused; *text; text++) firmware(1, 0, (u64[6]){(unsigned char)*text}, &unused);
}

void say_hex(const char *before, u64 n) {
    char text[17], *p = text + 16;
    for (*p = 0; p == text + 16 || n; n >>= 4) *--p = "0123456789abcdef"[n & 15];
    say(before), say(p);
}

void stop(void) {
    u64 unused;
    firmware(0x53525354, 0, (u64[6]){0}, &unused);
    for (;;) asm volatile("wfi");
}

/* entry.S: a trap of the host itself. */
void died(u64 scause, u64 sepc, u64 stval) {
    say_hex("FAIL the host trapped: scause ", scause), say_hex(", sepc ", sepc), say_hex(", stval ", stval), say("\n");
    stop();
}

void *memset(void *to, int byte, size_t n) {
    unsigned char *p = to;
    u64 eight = 0x0101010101010101 * (unsigned char)byte;
    for (; n >= 8 && (u64)p % 8 == 0; n -= 8, p += 8) *(u64 *)p = eight;
    while (n--) *p++ = (unsigned char)byte;
    return to;
}

void *memcpy(void *to, const void *from, size_t n) {
    unsigned char *p = to;
    const unsigned char *q = from;
    for (; n >= 8 && ((u64)p | (u64)q) % 8 == 0; n -= 8, p += 8, q += 8) *(u64 *)p = *(const u64 *)q;
    while (n--) *p++ = *q++;
    return to;
}
