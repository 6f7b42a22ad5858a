/* The hart made ready for guests, a guest made, and guests run in turn. */
#include "hypervisor.h"

u64 host_hart;

_Static_assert(offsetof(struct guest, host_sp) == 464, "entry.S counts on it");

int names_a_hart(u64 mask, u64 base) {
    if (base == -1ull) return 1; /* every hart */
    if (mask == 0) return 0;
    return mask == 1 && base == 0 ? 1 : -1;
}

void boot(u64 hart) {
    host_hart = hart;
    csr_put(hedeleg, VCPU_HEDELEG), csr_put(hideleg, VCPU_HIDELEG);
    csr_put(hcounteren, 7);       /* a guest reads cycle, time and instret, and has stimecmp */
    csr_put(sie, 1 << 5 | 1 << 1); /* the host's timer ends a slice */
    csr_put(henvcfg, HENVCFG_STCE);
    if (csr_get(henvcfg) & HENVCFG_STCE) return;
    say("FAIL this hart has no Sstc, or the firmware keeps it\n");
    stop();
}

void make(struct guest *g, char name, const unsigned char *image, const unsigned char *end, u64 ram_size) {
    memset(g, 0, sizeof *g);
    g->root = pages(4);
    g->ram = pages(ram_size / 4096), g->ram_size = ram_size;
    memcpy(g->ram, image, (size_t)(end - image));
    u64 wrong = vcpu_new(&g->v, 0, GUEST_RAM + ram_size) != VCPU_DONE; /* a0, a1: hart 0; a place for a device tree */
    wrong |= vcpu_setup(&g->v) != VCPU_DONE;
    wrong |= vcpu_set_entry(&g->v, GUEST_RAM) != VCPU_DONE;
    wrong |= vcpu_set_nested_page_table(&g->v, 3, 8, (u64)g->root) != VCPU_DONE;
    if (wrong) say("FAIL a guest is not made\n"), stop();
    g->name = name, g->henvcfg = HENVCFG_STCE;
    g->device.fingerprint = 0xefeeddccbbaa9988; /* every byte has its top bit set */
}

/* Each guest in turn, for a slice of time, until all are down. */
void run(struct guest *g, int n, u64 slice) {
    for (int up = n, i = 0; up; i = (i + 1) % n) {
        u64 end = csr_get(time) + slice;
        while (!g[i].down && csr_get(time) < end) one_trap(&g[i], end);
        up = 0;
        for (int k = 0; k < n; k++) up += !g[k].down;
    }
}
