/* One line for each new kind of trap: what the hart wrote, what the handler was given and what it replied, asks and end. */
#include "test.h"

static struct vcpu_trap trap;
static u64 eid, fid, hart, replies[4], n;

void trace_start(const struct vcpu *v, const struct vcpu_trap *t, u64 hart_htinst) {
    trap = *t, hart = hart_htinst, n = 0;
    eid = t->scause == 10 ? v->x[17] : 0, fid = t->scause == 10 ? v->x[16] : 0;
}

void trace_reply(u64 reply) {
    if (n < 4) replies[n++] = reply;
}

void trace_end(void) {
    static u64 seen[256], kinds;
    u64 kind = trap.scause * 31 + trap.htinst;
    if (trap.scause == 22) kind = kind * 31 + trap.stval;
    kind = (kind * 31 + eid) * 31 + fid;
    for (u64 i = 0; i < n; i++) kind = kind * 1021 + replies[i];
    for (u64 i = 0; i < kinds; i++)
        if (seen[i] == kind) return;
    if (kinds == 256) return;
    seen[kinds++] = kind;
    say_hex("# scause ", trap.scause), say_hex(" stval ", trap.stval), say_hex(" htval ", trap.htval), say_hex(" htinst ", trap.htinst);
    if (trap.htinst != hart) say_hex(" (the hart's ", hart), say(")");
    if (trap.scause == 10) say_hex(" a7 ", eid), say_hex(" a6 ", fid);
    say(" ->");
    if (n == 0) say(" mapped, with no call");
    for (u64 i = 0; i < n; i++) say_hex(" ", replies[i]);
    say("\n");
}
