/* The world switch: between a guest's record and the hart. entry.S has the general registers. */
#include "hypervisor.h"

static struct guest *last; /* whose CSRs, floating-point registers and translations the hart holds */

void load(struct guest *g, u64 slice_end) {
    struct vcpu *v = &g->v;
    u64 stce = g->henvcfg & HENVCFG_STCE, wake = slice_end;
    if (!stce) { /* before hvip is loaded */
        u64 due = keep_timer(g);
        if (due < wake) wake = due;
    }
    csr_put(stimecmp, wake); /* the host's own timer */
    csr_put(sepc, v->sepc), csr_put(sstatus, v->sstatus), csr_put(hstatus, v->hstatus);
    csr_put(vsstatus, v->vsstatus), csr_put(vstvec, v->vstvec), csr_put(vsepc, v->vsepc);
    csr_put(vscause, v->vscause), csr_put(vstval, v->vstval);
    /* In this order for qemu 7.2: a write to vstimecmp compares it with the clock as it is then, and sets or clears hvip's timer bit. */
    csr_put(henvcfg, g->henvcfg), csr_put(htimedelta, g->htimedelta);
    csr_put(vstimecmp, stce ? v->vstimecmp : -1ull);
    csr_put(hie, v->hie), csr_put(hvip, v->hvip), csr_put(hgeie, v->hgeie);
    csr_put(vsatp, g->vsatp), csr_put(vsscratch, g->vsscratch);
    csr_put(scounteren, g->scounteren), csr_put(senvcfg, g->senvcfg);
    if (last == g) return;
    csr_put(hgatp, v->hgatp); /* VMID 0 for every guest, so the other's translations have to go */
    asm volatile(WITH_H("hfence.gvma\n hfence.vvma") ::: "memory");
    csr_set(sstatus, SSTATUS_FS_INITIAL);
    if (last) save_fp(last->f);
    load_fp(g->f);
    csr_put(sstatus, v->sstatus);
    last = g;
}

/* Every CSR that the guest or the trap can have changed. hgeie, hgatp, henvcfg and htimedelta it can't reach. */
void save(struct guest *g, struct vcpu_trap *t) {
    struct vcpu *v = &g->v;
    *t = (struct vcpu_trap){csr_get(scause), csr_get(stval), csr_get(htval), csr_get(htinst), ROOM};
    v->sepc = csr_get(sepc), v->sstatus = csr_get(sstatus), v->hstatus = csr_get(hstatus);
    v->vsstatus = csr_get(vsstatus), v->vstvec = csr_get(vstvec), v->vsepc = csr_get(vsepc);
    v->vscause = csr_get(vscause), v->vstval = csr_get(vstval);
    v->hie = csr_get(hie), v->hvip = csr_get(hvip); /* its sie and its sip.SSIP */
    if (g->henvcfg & HENVCFG_STCE) v->vstimecmp = csr_get(vstimecmp);
    g->vsatp = csr_get(vsatp), g->vsscratch = csr_get(vsscratch);
    g->scounteren = csr_get(scounteren), g->senvcfg = csr_get(senvcfg);
}
