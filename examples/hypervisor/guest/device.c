/* The match device: every load and store, on both kinds of hart. */
#include "guest.h"

/* The access's base is sp: where C is there, the assembler makes the 16-bit forms c.lwsp, c.ldsp, c.swsp, c.sdsp. */
#define LOAD_SP(op, offset) ({ register u64 r_ asm("a0") = 0x77; \
    asm volatile("mv t0, sp\n mv sp, %1\n " op " %0, " offset "(sp)\n mv sp, t0" : "+r"(r_) : "r"(DEVICE) : "t0", "memory"); r_; })
#define STORE_SP(op, source, offset, n) ({ register u64 r_ asm("a0") = (n); \
    asm volatile("mv t0, sp\n mv sp, %1\n " op " " source ", " offset "(sp)\n mv sp, t0" ::"r"(r_), "r"(DEVICE + 0x20) : "t0", "memory"); })

static void accesses(void) {
    u64 before = faults, n = 0x1122334455667788;
    check("lb", LOAD("lb", DEVICE), 0xffffffffffffff88);
    check("lbu", LOAD("lbu", DEVICE + 1), 0x99);
    check("lh", LOAD("lh", DEVICE), 0xffffffffffff9988);
    check("lhu", LOAD("lhu", DEVICE + 2), 0xbbaa);
    check("lw", LOAD("lw", DEVICE), 0xffffffffbbaa9988);
    check("lwu", LOAD("lwu", DEVICE + 4), 0xefeeddcc);
    check("ld", LOAD("ld", DEVICE), FINGERPRINT);
    check("lwu, misaligned within the page", LOAD("lwu", DEVICE + 1), 0xccbbaa99);
    asm volatile(LONG("lw zero, 0(%0)") ::"r"(DEVICE) : "memory");
    check("lw to x0 is a device read", seen(GET_REPLY), 9);
    check("lw by sp", LOAD_SP("lw", "4"), 0xffffffffefeeddcc);
    check("ld by sp", LOAD_SP("ld", "0"), FINGERPRINT);

    STORE("sb", DEVICE + 0x20, n), check("sb: bytes", seen(GET_STORE_BYTES), 1), check("sb: data", seen(GET_STORE_DATA), 0x88);
    STORE("sh", DEVICE + 0x20, n), check("sh: bytes", seen(GET_STORE_BYTES), 2), check("sh: data", seen(GET_STORE_DATA), 0x7788);
    STORE("sw", DEVICE + 0x20, n), check("sw: bytes", seen(GET_STORE_BYTES), 4), check("sw: data", seen(GET_STORE_DATA), 0x55667788);
    STORE("sd", DEVICE + 0x20, n), check("sd: bytes", seen(GET_STORE_BYTES), 8), check("sd: data", seen(GET_STORE_DATA), n);
    asm volatile(LONG("sw zero, 0(%0)") ::"r"(DEVICE + 0x20) : "memory");
    check("sw of x0: data", seen(GET_STORE_DATA), 0);
    /* with offset 0 the bits of c.swsp in which a load has its rd are 0 */
    STORE_SP("sw", "%0", "0", n), check("sw by sp: bytes", seen(GET_STORE_BYTES), 4), check("sw by sp: data", seen(GET_STORE_DATA), 0x55667788);
    STORE_SP("sd", "%0", "0", n), check("sd by sp: bytes", seen(GET_STORE_BYTES), 8), check("sd by sp: data", seen(GET_STORE_DATA), n);
    STORE_SP("sd", "zero", "0", n), check("sd of x0 by sp: data", seen(GET_STORE_DATA), 0);
    check("faults that the guest saw", faults - before, 0);
}

static void matches(void) {
    STORE_LONG("sd", DEVICE + 0x20, FINGERPRINT), check("a candidate that matches", LOAD("lbu", DEVICE + 0x28), 1);
    STORE_LONG("sb", DEVICE + 0x20, 0), check("one that does not", LOAD("lbu", DEVICE + 0x28), 0);
}

void device(void) {
    u64 before;
    say("The device, on a hart that writes htinst\n");
    accesses(), check("the handler asked for nothing", seen(GET_FIRST_REPLY), 10);
    say("The device, on a hart that leaves htinst 0\n");
    knob(KNOB_HTINST_ZERO, 1), accesses(), check("the handler asked for the word", seen(GET_FIRST_REPLY), 0x21), knob(KNOB_HTINST_ZERO, 0);
    matches();
    check("a load from nowhere", LOAD("lwu", NOWHERE), 0xffffffff);
    before = faults;
    asm volatile("amoadd.w a2, %0, (%1)" ::"r"(1), "r"(DEVICE) : "a2", "memory");
    /* qemu has it as a load where there is one hart, and as a store otherwise */
    check("an AMO on the device is a fault for the guest", faults == before + 1 && (cause == 5 || cause == 7), 1);
}
