/* A guest's calls to its host (a7 = VCPU_EID_HVC). This host has none. */
#include "hypervisor.h"

u64 hypercall(struct guest *g, u64 number, const u64 *args) {
    (void)g, (void)number, (void)args;
    return NOT_SUPPORTED;
}
