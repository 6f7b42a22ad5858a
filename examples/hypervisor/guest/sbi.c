/* SBI calls of each extension, IPIs and interrupts. */
#include "guest.h"

static u64 mask = 1;
static char text[80];

static void legacy(void) {
    struct result r;
    r = call(1, 0, '.', 0, 0), call(1, 0, '\n', 0, 0), known("legacy 1, putchar: a0", r.error, 0, '.');
    r = call(2, 0, 0, 0, 0), check("legacy 2, getchar: nothing typed", r.error, FAILED);
    knob(KNOB_TYPED, 1);
    r = call(2, 0, 0, 0, 0), check("legacy 2, getchar", r.error, '!');
    /* the address is the compiler's, so what is printed is whether a0 kept it */
    for (u64 eid = 5; eid <= 7; eid++)
        r = call(eid, 0, &mask, 0, 0x1000), known("legacy 5 to 7, a fence: a0 kept", r.error == (u64)&mask, 0, 1);
}

static void console(void) {
    struct result r;
    u64 n;
    for (n = 0; n < 70; n++) text[n] = 'a' + n % 26;
    text[70] = '\n';
    n = call(DBCN, 0, 71, text, 0).value, r = call(DBCN, 0, 71 - n, text + n, 0);
    check("DBCN write: cut to the host's room", n, 64), check("DBCN write: the rest", r.value, 7);
    r = call(DBCN, 0, 5, text, 1), check("DBCN write: a2 not 0", r.error, INVALID_PARAMETER);
    r = call(DBCN, 0, 5, NOWHERE, 0), known("DBCN write from no memory", r.error, INVALID_PARAMETER, FAILED);
    r = call(DBCN, 1, 16, text, 0), check("DBCN read", r.value == 5 && text[0] == 't' && text[4] == 'd', 1);
    knob(KNOB_TYPED, 0);
    r = call(DBCN, 1, 16, text, 0), check("DBCN read: nothing typed", r.error | r.value, 0);
    r = call(DBCN, 2, 'B', 0, 0), call(DBCN, 2, 0x10a, 0, 0), check("DBCN write byte", r.error | r.value, 0);
    r = call(DBCN, 3, 0, 0, 0), check("DBCN, another fid", r.error, NOT_SUPPORTED);
}

static void interrupts(void) {
    struct result r;
    csr_set(sie, 2), ipis = 0;
    r = call(SPI, 0, 1, 0, 0), check("sPI to itself", r.error, 0), check("is taken", ipis, 1);
    r = call(SPI, 0, 0, -1, 0), check("sPI to every hart", r.error, 0), check("is taken", ipis, 2);
    r = call(SPI, 0, 2, 0, 0), check("sPI to a hart that is not there", r.error, INVALID_PARAMETER);
    r = call(4, 0, &mask, 0, 0), check("legacy 4, IPI, mask from memory", r.error, 0), check("is taken", ipis, 3);
    r = call(4, 0, NOWHERE, 0, 0), check("legacy 4, IPI, no mask", r.error, FAILED);
    csr_put(sie, 0), call(SPI, 0, 1, 0, 0), check("with sie 0 it is pending", csr_get(sip) & 2, 2);
    r = call(3, 0, 0, 0, 0), check("legacy 3, clear IPI", csr_get(sip) & 2, 0), known("legacy 3: a0, one was pending", r.error, 1, 0);
    csr_put(sie, 2), csr_clear(sstatus, 2), faults = 0, call(SPI, 0, 1, 0, 0);
    asm volatile("wfi"); /* an interrupt that is not taken ends it */
    check("wfi is the guest's own", faults, 0), csr_clear(sip, 2), csr_set(sstatus, 2);
    csr_put(sie, 1 << 9), externals = 0, knob(KNOB_LINE, 1), check("the host raises the external interrupt", externals, 1);
    knob(KNOB_LATCH, 1 << 10), check("the host latches it", externals, 2), csr_put(sie, 0);
    knob(KNOB_SOFT, 1), check("a software interrupt of the host is an exit", seen(GET_SOFT), 1);
}

void sbi_calls(void) {
    struct result r;
    say("SBI\n");
    r = call(BASE, 0, 0, 0, 0), check("BASE version", r.error == 0 && r.value == 2 << 24, 1);
    r = call(BASE, 3, TIME, 0, 0), check("BASE probe, TIME", r.value, 1);
    r = call(BASE, 3, DBCN, 0, 0), check("BASE probe, DBCN", r.value, 1);
    r = call(BASE, 3, PMU, 0, 0), check("BASE probe, PMU", r.value, 0);
    r = call(0x0A000000, 0, 0, 0, 0), check("an unknown extension", r.error, NOT_SUPPORTED);
    r = call(PMU, 0, 0, 0, 0), check("PMU", r.error, NOT_SUPPORTED);
    legacy();
    console();
    interrupts();
    r = sbi(HVC, CALL_DIGITS, 1, 2, 3, 4, 5, 6), check("hypercall: a6 and a0 to a5", r.error, 123456), check("its a1 is kept", r.value, 2);
    r = call(RFNC, 0, 1, 0, 0), check("RFNC fence.i", r.error, 0), check("is event 3", seen(3), 1);
    r = call(RFNC, 1, 1, 0, 0), check("RFNC sfence.vma", r.error, 0), check("is event 4", seen(4), 1);
    r = call(RFNC, 2, 1, 0, 0), check("RFNC sfence.vma with ASID", r.error, 0), check("is event 5", seen(5), 1);
    r = call(RFNC, 1, 2, 0, 0), check("RFNC to a hart that is not there", r.error, INVALID_PARAMETER);
    r = call(RFNC, 3, 1, 0, 0), check("RFNC hfence.gvma", r.error, NOT_SUPPORTED);
    r = call(HSM, 2, 0, 0, 0), known("HSM status", r.error, 0, NOT_SUPPORTED);
    r = call(HSM, 0, 1, 0x80000000, 0), check("HSM start of a hart that is not there", r.error, INVALID_PARAMETER), check("its a1", r.value, 0);
    r = call(HSM, 3, 0, 0, 0), check("HSM suspend", r.error | r.value, 0);
    r = call(SRST, 0, 1, 0, 0), check("SRST reboot", r.error, NOT_SUPPORTED);
}
