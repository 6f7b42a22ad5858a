/* What a trap ends in, and what this host does about it. */
#include "hypervisor.h"

/* An exception for the guest's own handler, which runs in VS mode whoever trapped. */
void inject(struct vcpu *v, u64 cause, u64 value) {
    v->vsepc = v->sepc, v->vscause = cause, v->vstval = value;
    v->vsstatus = (v->vsstatus & ~(VSSTATUS_SIE | VSSTATUS_SPIE | VSSTATUS_SPP)) | (v->vsstatus & VSSTATUS_SIE ? VSSTATUS_SPIE : 0) |
                  (v->hstatus & HSTATUS_SPVP ? VSSTATUS_SPP : 0);
    v->sepc = v->vstvec & ~3ull, v->sstatus |= SSTATUS_SPP;
}

static void interrupt(u64 vector) {
    /* The timer: the slice or a guest's deadline is over, and load looks at both. */
    if (vector == VCPU_VECTOR_SOFT) csr_clear(sip, 2);
}

static void ipi(struct vcpu *v, const u64 *word) {
    int here = names_a_hart(word[VCPU_WORD_IPI_MASK], word[VCPU_WORD_IPI_BASE]);
    if (here > 0) vcpu_set_pending(v, VCPU_VECTOR_SOFT, 1);
    vcpu_complete_ipi(v, word[VCPU_WORD_IPI_ABI], here < 0 ? VCPU_IPI_INVALID_PARAMETER : VCPU_IPI_SUCCESS);
}

/* HSM's result is the host's to write where the handler leaves it: a0 and a1. */
static void result(struct vcpu *v, u64 error) {
    vcpu_set_return_value(v, error);
    vcpu_set_gpr(v, 11, 0);
}

/* The handler leaves sepc at the ecall. A retentive suspend (type 0) may end at any time: here at once. */
static void halt(struct vcpu *v) {
    u64 type = v->x[10];
    result(v, type == 0 ? 0 : NOT_SUPPORTED);
    v->sepc += 4;
}

static int is_device(u64 gpa, u64 bytes) {
    u64 at = gpa - GUEST_DEVICE;
    return at < 4096 && bytes <= 4096 - at;
}

static void cannot(struct guest *g, const struct vcpu_trap *t, u64 reply) {
    say_hex("FAIL a trap that this host can't serve: reply ", reply), say_hex(", scause ", t->scause), say_hex(", stval ", t->stval);
    say_hex(", htinst ", t->htinst), say_hex(", sepc ", g->v.sepc), say("\n");
    g->down = 1;
}

void finish(struct guest *g, const struct vcpu_trap *t, u64 reply, const u64 *word) {
    struct vcpu *v = &g->v;
    u64 at = word[VCPU_WORD_MMIO_ADDRESS], bytes = word[VCPU_WORD_MMIO_BYTES], access = word[VCPU_WORD_FAULT_ACCESS];
    switch (reply) {
    case VCPU_EXIT_NOTHING: return;
    case VCPU_EXIT_EXTERNAL_INTERRUPT: interrupt(word[VCPU_WORD_INTERRUPT_VECTOR]); return;
    case VCPU_EXIT_SEND_IPI: ipi(v, word); return;
    case VCPU_EXIT_CPU_UP: result(v, INVALID_PARAMETER); return; /* there is no other hart */
    case VCPU_EXIT_HALT: halt(v); return;
    case VCPU_EXIT_HYPERCALL:
        vcpu_set_return_value(v, hypercall(g, word[VCPU_WORD_HYPERCALL_NUMBER], word + VCPU_WORD_HYPERCALL_A0));
        return;
    case VCPU_EXIT_CPU_DOWN:
    case VCPU_EXIT_SYSTEM_DOWN: g->down = 1; return;
    case VCPU_EXIT_NESTED_PAGE_FAULT: /* nothing that decodes, or a fetch; RAM was mapped before */
        inject(v, access == VCPU_ACCESS_READ ? 5 : access == VCPU_ACCESS_WRITE ? 7 : 1, t->stval);
        return;
    case VCPU_EXIT_MMIO_READ: /* sepc has moved: where there is no device, a bus gives ones */
        vcpu_complete_load(v, is_device(at, bytes) ? device_read(g, at, bytes) : -1ull);
        return;
    case VCPU_EXIT_MMIO_WRITE:
        if (is_device(at, bytes)) device_write(g, at, bytes, word[VCPU_WORD_MMIO_DATA]);
        return;
    case VCPU_ERROR + VCPU_UNSUPPORTED: /* nothing changed, and sepc is at the instruction */
        switch (t->scause) {
        case 1: case 4: case 5: case 6: case 7: inject(v, t->scause, t->stval); return; /* not delegated, and the guest's own */
        case 22: inject(v, 2, t->stval); return;                                        /* a CSR or an instruction that it has not */
        }
    }
    cannot(g, t, reply);
}
