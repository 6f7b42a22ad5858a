/* htinst as PRIV has it (Hypervisor Extension, Transformed Instruction), for a hart that leaves it 0: the word without its immediate,
 * and in place of rs1 how far the faulting address is behind the access's own. A compressed one is expanded, with bit 1 cleared. */
#include "test.h"

static u64 bits(u64 word, int low, int n) { return word >> low & ((1u << n) - 1); }

u64 transformed(struct guest *g, const struct vcpu_trap *t) {
    u64 low, high = 0, word, rs1, offset, plain;
    if (read_virtual(g, g->v.sepc, 1, &low) || ((low & 3) == 3 && read_virtual(g, g->v.sepc + 2, 1, &high))) return 0;
    word = low | high << 16;
    if ((low & 3) == 3) {
        int store = bits(word, 0, 7) == 0x23;
        if (bits(word, 0, 7) == 0x2f) return word & ~(31ull << 15); /* an AMO is never split */
        if (bits(word, 0, 7) != 0x03 && !store) return 0;
        rs1 = bits(word, 15, 5);
        offset = store ? bits(word, 25, 7) << 5 | bits(word, 7, 5) : bits(word, 20, 12);
        offset = (offset ^ 0x800) - 0x800; /* 12 bits with a sign */
        plain = store ? word & 0x1f0707f : word & 0x7fff;
    } else {
        int sp = bits(word, 0, 2) == 2, eight = bits(word, 13, 1), store = bits(word, 15, 1), reg;
        if (bits(word, 0, 2) == 1 || !bits(word, 14, 1)) return 0;
        rs1 = sp ? 2 : 8 + bits(word, 7, 3);
        reg = !sp ? 8 + bits(word, 2, 3) : store ? bits(word, 2, 5) : bits(word, 7, 5);
        if (!sp) offset = bits(word, 10, 3) << 3 | (eight ? bits(word, 5, 2) << 6 : bits(word, 6, 1) << 2 | bits(word, 5, 1) << 6);
        else if (store) offset = eight ? bits(word, 10, 3) << 3 | bits(word, 7, 3) << 6 : bits(word, 9, 4) << 2 | bits(word, 7, 2) << 6;
        else if (eight) offset = bits(word, 12, 1) << 5 | bits(word, 5, 2) << 3 | bits(word, 2, 3) << 6;
        else offset = bits(word, 12, 1) << 5 | bits(word, 4, 3) << 2 | bits(word, 2, 2) << 6;
        plain = (eight ? 3 : 2) << 12 | (store ? 0x21 | reg << 20 : 0x01 | reg << 7);
    }
    return plain | bits(t->stval - (g->v.x[rs1] + offset), 0, 5) << 15;
}
