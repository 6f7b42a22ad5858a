/* A guest's memory: G-stage paging (Sv39x4), a page at a time, when the guest touches it. */
#include "hypervisor.h"

static u64 heap = 0x84000000; /* host physical, behind this host; never given back */

void *pages(u64 n) {
    u64 at = heap;
    heap = (heap + n * 4096 + 0x3fff) & ~0x3fffull; /* at multiples of 16 KiB, as a root must be */
    return memset((void *)at, 0, n * 4096);
}

unsigned char *ram_at(struct guest *g, u64 gpa, u64 n) {
    u64 at = gpa - GUEST_RAM;
    return at < g->ram_size && n <= g->ram_size - at ? g->ram + at : 0;
}

/* The root of Sv39x4 has 2048 entries, every other table 512. */
void map(struct guest *g, u64 gpa) {
    u64 *table = g->root, i = gpa >> 30 & 0x7ff;
    for (int shift = 21; shift >= 12; shift -= 9) {
        if (!(table[i] & 1)) table[i] = (u64)pages(1) >> 12 << 10 | 1;
        table = (u64 *)(table[i] >> 10 << 12), i = gpa >> shift & 0x1ff;
    }
    table[i] = (u64)ram_at(g, gpa & ~0xfffull, 4096) >> 12 << 10 | 0xdf; /* D A U X W R V: every G-stage access is as of U */
    asm volatile(WITH_H("hfence.gvma") ::: "memory");
}

/* A host that maps on demand looks for RAM before it starts the trap. A load or store of RAM would decode, and exit as MmioRead with
 * sepc moved; a fetch (20) and a walk of the guest's own page tables (htinst 0x3000, 0x3020) would end in error 3. */
int cure(struct guest *g, const struct vcpu_trap *t) {
    if ((t->scause != 20 && t->scause != 21 && t->scause != 23) || !ram_at(g, t->htval << 2, 1)) return 0;
    map(g, t->htval << 2);
    return 1;
}

/* peek, where a page of RAM that was not mapped is no fault. */
u64 read_virtual(struct guest *g, u64 va, u64 execute, u64 *to) {
    for (;;) {
        u64 fault = peek(va, execute, to);
        if (fault != 1 + 21 || !ram_at(g, csr_get(htval) << 2, 1)) return fault;
        map(g, csr_get(htval) << 2);
    }
}
