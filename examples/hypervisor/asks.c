/* What the handler asks of its host in the middle of a trap. */
#include "hypervisor.h"

enum { BASE = 0x10, TIME = 0x54494D45, SPI = 0x735049, HSM = 0x48534D, SRST = 0x53525354, DBCN = 0x4442434E, RFNC = 0x52464E43 };

/* BASE is about what this guest gets, and not about the firmware below: SBI 2.0, so that it looks for DBCN, and its own extensions. */
static u64 base(u64 fid, u64 a0) {
    switch (fid) {
    case 0: return 2 << 24;
    case 1: return 0x63757262; /* no number of SBI's list */
    case 2: return 1;
    case 3:
        switch (a0) {
        case 0: case 1: case 2: case 3: case 4: case 8: /* legacy; the fences 5 to 7 do nothing */
        case BASE: case TIME: case SPI: case HSM: case SRST: case DBCN: case RFNC: case VCPU_EID_HVC: return 1;
        }
    }
    return 0; /* mvendorid and the like: 0 is 'not told' */
}

/* What is forwarded is the guest's wish. This is the list of what it may call, and how its words become the firmware's. */
static void forward(u64 eid, u64 fid, const u64 *args, struct vcpu_answer_words *a) {
    int here;
    if (eid == BASE && fid <= 6) a->second = base(fid, args[0]);
    else if (eid == RFNC && fid <= 2) {
        /* The harts are the guest's: its one is this hart. Its fence.i is a fence.i, its sfence.vma an hfence.vvma (6, with ASID 5). */
        if ((here = names_a_hart(args[0], args[1])) < 0) a->first = INVALID_PARAMETER;
        else if (here) a->first = firmware(RFNC, fid ? 7 - fid : 0, (u64[6]){1, host_hart, args[2], args[3], args[4]}, &a->second);
    } else a->first = NOT_SUPPORTED;
}

void serve(struct guest *g, const u64 *word, struct vcpu_answer_words *a) {
    u64 at = word[VCPU_WORD_COPY_ADDRESS], n = word[VCPU_WORD_COPY_COUNT], count = word[VCPU_WORD_CONSOLE_COUNT], byte;
    unsigned char *p;
    switch (a->ask) {
    case VCPU_ASK_FETCH: fetch(g, word[VCPU_WORD_FETCH_ADDRESS], word[VCPU_WORD_FETCH_SUPERVISOR], a); break;
    case VCPU_ASK_COPY_MASK: /* it was called from VS mode, and hstatus.SPVP says so */
        for (; a->first < 8 && !read_virtual(g, at + a->first, 0, &byte); a->first++) a->second |= byte << 8 * a->first;
        break;
    case VCPU_ASK_COPY_IN:
        if ((p = ram_at(g, at, n))) memcpy(g->buffer, p, a->first = n);
        break;
    case VCPU_ASK_PRINT:
        for (u64 i = 0; i < count; i++) console_write(g, (char)g->buffer[i]);
        a->second = count;
        break;
    case VCPU_ASK_READ_CONSOLE: a->second = console_read(g, g->buffer, count); break;
    case VCPU_ASK_COPY_OUT:
        if ((p = ram_at(g, at, n))) memcpy(p, g->buffer, a->first = n);
        break;
    case VCPU_ASK_EMIT: console_write(g, (char)word[VCPU_WORD_EMIT_CHARACTER]); break;
    case VCPU_ASK_GET_CHAR: a->first = console_char(g); break;
    case VCPU_ASK_FORWARD: forward(word[VCPU_WORD_FORWARD_EID], word[VCPU_WORD_FORWARD_FID], word + VCPU_WORD_FORWARD_A0, a); break;
    }
}
