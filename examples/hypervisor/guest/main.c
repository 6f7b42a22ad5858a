/* What the tests share, and their order. */
#include "guest.h"

volatile u64 cause, epc, from, faults, ticks, ipis, externals;
volatile enum off off;
static u64 bad, gaps;

struct result sbi(u64 eid, u64 fid, u64 x0, u64 x1, u64 x2, u64 x3, u64 x4, u64 x5) {
    register u64 a0 asm("a0") = x0, a1 asm("a1") = x1, a2 asm("a2") = x2, a3 asm("a3") = x3, a4 asm("a4") = x4, a5 asm("a5") = x5,
                 a6 asm("a6") = fid, a7 asm("a7") = eid;
    asm volatile("ecall" : "+r"(a0), "+r"(a1) : "r"(a2), "r"(a3), "r"(a4), "r"(a5), "r"(a6), "r"(a7) : "memory");
    return (struct result){a0, a1};
}

void knob(u64 which, u64 to) { call(HVC, CALL_SET, which, to, 0); }
u64 seen(u64 what) { return call(HVC, CALL_GET, what, 0, 0).error; }

void say(const char *text) {
    while (*text) call(1, 0, *text++, 0, 0);
}

static void hex(u64 n) {
    char text[17], *p = text + 16;
    for (*p = 0; p == text + 16 || n; n >>= 4) *--p = "0123456789abcdef"[n & 15];
    say(" "), say(p);
}

static void decimal(u64 n) {
    char text[21], *p = text + 20;
    for (*p = 0; p == text + 20 || n; n /= 10) *--p = '0' + n % 10;
    say(" "), say(p);
}

void known(const char *name, u64 got, u64 want, u64 by_01) {
    if (got == want) say("ok   ");
    else if (got == by_01) gaps++, say("gap  ");
    else bad++, say("FAIL ");
    say(name);
    if (got != want) say(": got"), hex(got), say(", should be"), hex(want);
    say("\n");
}

void check(const char *name, u64 got, u64 want) { known(name, got, want, want); }

/* start.S: where to go on. An interrupt is counted and ended, a fault is noted and its instruction skipped. */
u64 handler(u64 scause, u64 sepc) {
    switch (scause) {
    case IRQ | 1: ipis++, csr_clear(sip, 2); return sepc;
    case IRQ | 9: externals++, knob(KNOB_LINE, 0); return sepc;
    case IRQ | 5:
        if (++ticks > 4) csr_clear(sie, 1 << 5); /* it does not stop by itself */
        if (off == BY_STIMECMP) csr_put(stimecmp, -1);
        else call(off == BY_TIME ? TIME : 0, 0, -1, 0, 0);
        return sepc;
    }
    cause = scause, epc = sepc, from = csr_get(sstatus) >> 8 & 1, faults++;
    if (from == 0) { /* user mode */
        csr_set(sstatus, 0x100);
        return (u64)user_done;
    }
    return sepc + ((*(unsigned short *)sepc & 3) == 3 ? 4 : 2);
}

void main(u64 hart, u64 dtb) {
    u64 fp;
    say(COMPRESSED ? "a guest with compressed instructions\n" : "a guest without compressed instructions\n");
    check("a0 at the start: the hart", hart, 0), check("a1 at the start: the device tree", dtb, 0x81000000);
    check("sie at the start", csr_get(sie), 0x222);
    csr_put(sie, 0), csr_set(sstatus, 0x2002); /* no source; SIE, and FS for the register that is to be kept */
    asm volatile(".option push\n .option arch, +d\n fmv.d.x fs0, %0\n .option pop" ::"r"(FINGERPRINT ^ COMPRESSED));
    csr_put(scounteren, 2 + COMPRESSED), csr_put(senvcfg, COMPRESSED); /* TM, CY; FIOM */
    check("the host has the test's knobs", call(HVC, CALL_HERE, 0, 0, 0).error, 1);

    sbi_calls();
    device();
    timers();
    ram();
    paging();

    asm volatile(".option push\n .option arch, +d\n fmv.x.d %0, fs0\n .option pop" : "=r"(fp));
    check("a floating-point register is kept", fp, FINGERPRINT ^ COMPRESSED);
    check("scounteren is kept", csr_get(scounteren), 2 + COMPRESSED), check("senvcfg is kept", csr_get(senvcfg), COMPRESSED);
    say("results:"), decimal(bad), say(" FAIL,"), decimal(gaps), say(" gap\n");
    switch (seen(GET_END)) {
    case 0: call(SRST, 0, 0, 0, 0); break;
    case 1: call(8, 0, 0, 0, 0); break;
    case 2: call(HSM, 1, 0, 0, 0); break;
    }
    say("FAIL still here after the end\n");
}
