/* The timer: by call and by stimecmp, kept by the hart (STCE 1) and by the host (STCE 0). */
#include "guest.h"

/* Until n ticks came, or it is too late. */
static void wait_for(u64 n, u64 most) {
    u64 end = csr_get(time) + most;
    while (ticks < n && csr_get(time) < end) ;
}

static void set_and_wait(const char *how, enum off by) {
    u64 at, old;
    say(how), off = by, ticks = 0, csr_set(sie, 1 << 5);
    at = csr_get(time) + 20000, call(TIME, 0, at, 0, 0), wait_for(1, 10000000);
    check("TIME set_timer: one tick", ticks, 1), check("not early", csr_get(time) >= at, 1);
    at = csr_get(time) + 20000, call(0, 0, at, 0, 0), wait_for(2, 10000000);
    check("legacy 0, set_timer: one tick", ticks, 2);
    at = csr_get(time) + (1ull << 40), csr_put(stimecmp, at), check("stimecmp reads back", csr_get(stimecmp), at);
    at = csr_get(time) + 20000, csr_put(stimecmp, at), wait_for(3, 10000000);
    check("stimecmp: one tick", ticks, 3), check("not early", csr_get(time) >= at, 1), check("and off again", csr_get(stimecmp), -1ull);
    asm volatile("csrrw %0, stimecmp, %1" : "=&r"(old) : "r"(-16ull));
    check("csrrw gives the old", old, -1ull);
    asm volatile("csrrs %0, stimecmp, %1" : "=&r"(old) : "r"(1ull));
    check("csrrs gives the old", old, -16ull);
    asm volatile("csrrc %0, stimecmp, %1" : "=&r"(old) : "r"(1ull));
    check("csrrc gives the old", old, -15ull);
    asm volatile("csrrsi %0, stimecmp, 5" : "=r"(old));
    check("csrrsi gives the old", old, -16ull);
    asm volatile("csrrci %0, stimecmp, 16" : "=r"(old));
    check("csrrci gives the old", old, -11ull);
    asm volatile("csrrwi %0, stimecmp, 31" : "=r"(old));
    check("csrrwi gives the old", old, -27ull);
    wait_for(4, 10000000), check("a deadline that is past: a tick at once", ticks, 4);
    csr_put(stimecmp, -1), wait_for(5, 30000), check("no tick more", ticks, 4);
}

/* A tick that stays pending in hvip until something clears it there. */
static void latched(const char *name, enum off by, u64 want) {
    off = by, ticks = 0, csr_set(sie, 1 << 5);
    call(TIME, 0, csr_get(time) + 1000, 0, 0), wait_for(1, 10000000), wait_for(9, 50000);
    check(name, ticks, want);
}

void timers(void) {
    u64 before = seen(1);
    set_and_wait("Timers that the hart keeps (STCE 1)\n", BY_TIME), set_and_wait("The same, a tick ended by stimecmp\n", BY_STIMECMP);
    knob(KNOB_STCE, 0);
    set_and_wait("Timers that the host keeps (STCE 0): each access to stimecmp traps\n", BY_TIME);
    knob(KNOB_HTINST_ZERO, 1);
    set_and_wait("The same, a tick ended by stimecmp, on a hart that leaves stval 0\n", BY_STIMECMP);
    check("they did trap", seen(GET_SCAUSE), 22), check("the handler asked for the word", seen(GET_FIRST_REPLY), 0x21);
    knob(KNOB_HTINST_ZERO, 0);
    check("each set_timer was event 1", seen(1) - before, 4 * 2 + 2 * 4); /* two a turn, and in two turns four ticks that a call ended */
    knob(KNOB_KEEP_TICK, 1);
    latched("TIME set_timer ends a tick that the host latched", BY_TIME, 1), latched("legacy 0, set_timer, does too", BY_LEGACY, 1);
    latched("a write to stimecmp does not: hvip is the host's", BY_STIMECMP, 5); /* PRIV, hip.VSTIP; then the handler turns ticks off */
    knob(KNOB_KEEP_TICK, 0), call(TIME, 0, -1, 0, 0), knob(KNOB_STCE, 1), csr_put(sie, 0);
}
