/* One trap of a guest, from its entry to its exit. */
#include "hypervisor.h"

void one_trap(struct guest *g, u64 slice_end) {
    struct vcpu_trap t;
    struct vcpu_out out;
    load(g, slice_end);
    enter(g);
    save(g, &t);
    if (cure(g, &t)) return;
    if (vcpu_crosses_page(&t)) { /* from RAM into a device, or between two devices */
        inject(&g->v, t.scause == 21 ? 5 : 7, t.stval);
        return;
    }
    u64 reply = vcpu_start(&g->v, &t, &out);
    while (vcpu_is_ask(reply)) {
        struct vcpu_answer_words answer = {reply - VCPU_ASK, 0, 0};
        serve(g, out.word, &answer);
        reply = vcpu_answer(&g->v, &answer, &out);
    }
    finish(g, &t, reply, out.word);
}
