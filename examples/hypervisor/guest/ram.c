/* RAM that was never touched, where the host starts the trap before it looks whether it was RAM; and what a guest has not. */
#include "guest.h"

__attribute__((section(".far"), noinline)) static void far(void) { asm volatile(""); }

void ram(void) {
    u64 n, *at = (u64 *)0x80400000;
    say("Faults\n");
    n = seen(2), faults = 0, csr_get(hgatp);
    check("a CSR that a guest has not: illegal", faults == 1 && cause == 2, 1), check("it was error 3", seen(GET_REPLY), 0x103);
    check("and event 2", seen(2), n + 1);

    knob(KNOB_LIBRARY_FIRST, 1);
    asm volatile("amoadd.d %0, %1, (%2)" : "=&r"(n) : "r"(5ull), "r"(at) : "memory");
    check("an AMO on new RAM", *at, 5), check("was NestedPageFault", seen(GET_REPLY), 8);
    check("lwu from new RAM", LOAD("lwu", 0x80401000), 0), check("was MmioRead", seen(GET_REPLY), 9);
    STORE_LONG("sd", 0x80402ff8, FINGERPRINT), check("sd to new RAM", *(u64 *)0x80402ff8, FINGERPRINT), check("was MmioWrite", seen(GET_REPLY), 10);
    far(), check("code on new RAM: error 3", seen(GET_REPLY), 0x103), check("its cause", seen(GET_SCAUSE), 20);

    knob(KNOB_LIBRARY_FIRST, 0), *(volatile u64 *)0x80403000 = 0x1111111122222222;
    check("ld over a page's end, both mapped", LOAD_LONG("ld", 0x80402ffc), 0x22222222efeeddcc);
    *(volatile u64 *)0x80406ff8 = 0x3333333344444444;
    check("ld over a page's end, the second new: mapped first", LOAD_LONG("ld", 0x80406ffc), 0x33333333);
    *(volatile u64 *)0x80404ff8 = 0x3333333344444444, knob(KNOB_LIBRARY_FIRST, 1), knob(KNOB_HTINST_ZERO, 1);
    known("the same by a host that starts the trap", LOAD_LONG("ld", 0x80404ffc), 0x33333333, 0);
    knob(KNOB_LIBRARY_FIRST, 0), knob(KNOB_HTINST_ZERO, 0);
}
