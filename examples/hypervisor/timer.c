/* A guest's timer where the hart does not keep it (henvcfg.STCE 0): the deadline is vstimecmp, and hvip's timer bit is set and
 * cleared here. (A guest's set_timer call clears it too; one computed at each entry needs no help.) */
#include "hypervisor.h"

u64 keep_timer(struct guest *g) {
    u64 deadline = g->v.vstimecmp, now = csr_get(time) + g->htimedelta; /* as the guest reads it */
    vcpu_set_pending(&g->v, VCPU_VECTOR_TIMER, now >= deadline);
    return now >= deadline ? -1ull : deadline - g->htimedelta;
}
