/* The instruction that a guest trapped at. */
#include "hypervisor.h"

void fetch(struct guest *g, u64 va, u64 supervisor, struct vcpu_answer_words *a) {
    u64 low = 0, high = 0;
    csr_put(hstatus, (csr_get(hstatus) & ~HSTATUS_SPVP) | (supervisor ? HSTATUS_SPVP : 0)); /* as whom hlvx reads */
    /* Two bytes first: they may be all there is, at a page's end, and the next page is then not this instruction's. */
    u64 fault = read_virtual(g, va, 1, &low);
    if (!fault && (low & 3) == 3) fault = read_virtual(g, va + 2, 1, &high);
    /* hlvx reads by execute permission, and its faults are a load's. */
    switch (fault) {
    case 0: a->first = low | high << 16, a->second = VCPU_FETCH_WORD; break;
    case 1 + 13: a->first = csr_get(stval), a->second = VCPU_FETCH_PAGE; break;
    case 1 + 5: a->first = csr_get(stval), a->second = VCPU_FETCH_ACCESS; break;
    case 1 + 4: a->first = csr_get(stval), a->second = VCPU_FETCH_MISALIGNED; break;
    case 1 + 21: a->first = csr_get(htval) << 2 | (csr_get(stval) & 3), a->second = VCPU_FETCH_GUEST_PAGE; break;
    default: a->second = VCPU_FETCH_UNHANDLED;
    }
}
