/* The proved exit handler of a RISC-V hypervisor, for a host in C. Link libin_place.a: tools/archive in_place makes it.
 *
 * Every function answers on every pattern of words, and touches only the words that it is lent. The pointers must be to words
 * that do not overlap. A refusal (1, 2, 7) changes nothing; of a row of posts, the refused post changes nothing, and those before it
 * stay. A trap that ends in an error (3 to 6) changed no register and no CSR. */
#ifndef CURBIZZOLU_H
#define CURBIZZOLU_H

#include <stddef.h>
#include <stdint.h>

#ifdef __cplusplus
extern "C" {
#endif

/* A guest's hart while it is not running: 58 words. */
struct vcpu {
    uint64_t x[32]; /* x0 to x31; a call leaves slot 0 as it was, and x0 reads 0 */
    uint64_t sepc, sstatus, hstatus;
    uint64_t vsstatus, vstvec, vsepc, vscause, vstval, vstimecmp;
    uint64_t hie, hvip, hgeie, hgatp;
    uint64_t counts[9];  /* events 1 to 9, see VCPU_EVENT_ */
    uint64_t waiting[4]; /* what waits: a kind, see VCPU_WAITS_, and three numbers */
};

/* The numbers that the hardware leaves at a trap, and the room of the console buffer (above 4096 counts as 4096). */
struct vcpu_trap {
    uint64_t scause, stval, htval, htinst, room;
};

/* An answer: its ask's number, and two numbers, see VCPU_ASK_. */
struct vcpu_answer_words {
    uint64_t ask, first, second;
};

/* One of a row of posts: a vector, and its level: 0 clears, any other sets. */
struct vcpu_post {
    uint64_t vector, level;
};

/* What a row of posts gives: how many were applied, and the refusal that stopped it, VCPU_INVALID_INPUT or VCPU_BAD_STATE, or 0. */
struct vcpu_posted {
    uint64_t applied, refusal;
};

/* The numbers that a reply carries, in order. Words that it does not carry are 0, whatever they held: a call sets all eight. Where a
 * processor stores two words at once, they are best aligned to 16 bytes: a pair across two pages costs more than the call. */
struct vcpu_out {
    uint64_t word[8];
};

/* What a function returns. An exit, with what it carries in vcpu_out: */
enum {
    VCPU_EXIT_NOTHING = 0,
    VCPU_EXIT_EXTERNAL_INTERRUPT = 1, /* vector */
    VCPU_EXIT_SEND_IPI = 2,           /* hart mask, its base, VCPU_IPI_ */
    VCPU_EXIT_CPU_UP = 3,             /* hart, entry (guest physical), argument */
    VCPU_EXIT_CPU_DOWN = 4,           /* state */
    VCPU_EXIT_HALT = 5,
    VCPU_EXIT_HYPERCALL = 6, /* number, 0, a0 to a5 */
    VCPU_EXIT_SYSTEM_DOWN = 7,
    VCPU_EXIT_NESTED_PAGE_FAULT = 8, /* guest physical address, VCPU_ACCESS_ */
    VCPU_EXIT_MMIO_READ = 9,         /* guest physical address, bytes; then vcpu_complete_load */
    VCPU_EXIT_MMIO_WRITE = 10        /* guest physical address, bytes, data */
};

/* or an ask, VCPU_ASK plus its number, with what it carries; behind it the two numbers of its answer: */
enum {
    VCPU_ASK = 0x20,
    VCPU_ASK_FETCH = 1,        /* guest virtual address, supervisor; answer: word or address, VCPU_FETCH_ */
    VCPU_ASK_COPY_MASK = 2,    /* guest virtual address, 8 bytes; answer: count, bytes */
    VCPU_ASK_COPY_IN = 3,      /* guest physical address, count, into the buffer; answer: count */
    VCPU_ASK_PRINT = 4,        /* count, from the buffer's start; answer: error, value */
    VCPU_ASK_READ_CONSOLE = 5, /* most bytes, into the buffer; answer: error, value */
    VCPU_ASK_COPY_OUT = 6,     /* guest physical address, count, from the buffer's start; answer: count */
    VCPU_ASK_EMIT = 7,         /* character; answer: nothing */
    VCPU_ASK_GET_CHAR = 8,     /* answer: character */
    VCPU_ASK_FORWARD = 9       /* eid, fid, a0 to a5; answer: error, value */
};

/* or VCPU_DONE; or VCPU_VALUE, with the value in word 0; or VCPU_ERROR plus a refusal's or error's number: */
enum {
    VCPU_DONE = 0x40,
    VCPU_VALUE = 0x41,
    VCPU_ERROR = 0x100,
    VCPU_INVALID_INPUT = 1,
    VCPU_BAD_STATE = 2,
    VCPU_UNSUPPORTED = 3,
    VCPU_INVALID_TRAP = 4,
    VCPU_DECODE_FAILED = 5,
    VCPU_GUEST_MEMORY_FAULT = 6,
    VCPU_WRONG_ANSWER = 7
};

enum { VCPU_ACCESS_READ = 1, VCPU_ACCESS_WRITE = 2, VCPU_ACCESS_EXECUTE = 4 };
enum { VCPU_IPI_LEGACY = 0, VCPU_IPI_SBI_V02 = 1 };

/* What came of VCPU_EXIT_SEND_IPI, as SBI numbers it: 64 bits, which an enum need not hold. */
#define VCPU_IPI_SUCCESS ((uint64_t)0)
#define VCPU_IPI_INVALID_PARAMETER ((uint64_t)-3)
#define VCPU_IPI_FAILED ((uint64_t)-1)

/* The second number of the answer to VCPU_ASK_FETCH; the first is the word, or the fault's address. The guest takes
 * VCPU_FETCH_PAGE, _ACCESS and _MISALIGNED itself, in supervisor mode: the exit is VCPU_EXIT_NOTHING, and sepc, sstatus and the VS CSRs
 * are set for it. */
enum {
    VCPU_FETCH_WORD = 0, /* of an instruction of 16 bits the upper half is not looked at */
    VCPU_FETCH_PAGE = 1,
    VCPU_FETCH_ACCESS = 2,
    VCPU_FETCH_MISALIGNED = 3,
    VCPU_FETCH_GUEST_PAGE = 4, /* its address is guest physical, the three above are guest virtual */
    VCPU_FETCH_UNHANDLED = 5
};

/* counts[VCPU_EVENT_.. - 1] */
enum {
    VCPU_EVENT_SET_TIMER = 1,
    VCPU_EVENT_ILLEGAL_INSN = 2,
    VCPU_EVENT_FENCE_I = 3,
    VCPU_EVENT_SFENCE_VMA = 4,
    VCPU_EVENT_SFENCE_VMA_ASID = 5,
    VCPU_EVENT_HFENCE_GVMA_VMID = 6,
    VCPU_EVENT_HFENCE_GVMA = 7,
    VCPU_EVENT_HFENCE_VVMA_ASID = 8,
    VCPU_EVENT_HFENCE_VVMA = 9
};

/* waiting[0], with what waiting[1] to waiting[3] hold; any other number is read as nothing waiting. */
enum {
    VCPU_WAITS_NOTHING = 0,
    VCPU_WAITS_LOAD = 1, /* rd, bytes, whether the sign is extended */
    VCPU_WAITS_FETCH_CSR = 2,
    VCPU_WAITS_FETCH_FAULT = 3, /* guest physical address, VCPU_ACCESS_ */
    VCPU_WAITS_COPY_MASK = 4,
    VCPU_WAITS_COPY_IN = 5,      /* count */
    VCPU_WAITS_PRINT = 6,        /* count */
    VCPU_WAITS_READ_CONSOLE = 7, /* count, guest physical address */
    VCPU_WAITS_COPY_OUT = 8,     /* count */
    VCPU_WAITS_PUT_CHAR = 9,
    VCPU_WAITS_PUT_BYTE = 10,
    VCPU_WAITS_GET_CHAR = 11,
    VCPU_WAITS_FORWARD = 12
};

/* Zeros, but a0 is the hart and a1 where the device tree lies. */
uint64_t vcpu_new(struct vcpu *v, uint64_t hart_id, uint64_t dtb_addr);
/* sstatus, hstatus, hie, vstimecmp, hvip and hgeie as a guest starts with them. */
uint64_t vcpu_setup(struct vcpu *v);
/* sepc. */
uint64_t vcpu_set_entry(struct vcpu *v, uint64_t entry);
/* A register, in word 0 of out; 0 in every word beside a refusal. */
uint64_t vcpu_get_gpr(const struct vcpu *v, uint64_t index, struct vcpu_out *out);
uint64_t vcpu_set_gpr(struct vcpu *v, uint64_t index, uint64_t value);
/* a0. */
uint64_t vcpu_set_return_value(struct vcpu *v, uint64_t value);
/* 3 levels with mode 8, or 4 with mode 9; the root (host physical) at a multiple of 16 KiB. */
uint64_t vcpu_set_nested_page_table(struct vcpu *v, uint64_t levels, uint64_t mode, uint64_t root);
/* 2^63 + 1, 2^63 + 5, 9 or 2^63 + 9; level 0 clears, any other sets. */
uint64_t vcpu_set_pending(struct vcpu *v, uint64_t vector, uint64_t level);
/* The same for a row, in order, in one call. A vector that is not allowed stops it: the refusal is VCPU_INVALID_INPUT, that post is
 * number `applied`, counted from 0, and changes nothing; those before it stay applied, those behind it are not looked at. While an ask
 * waits the row is refused with VCPU_BAD_STATE before its first post, an empty one too. With a count of 0 the pointer is not looked
 * at, and may be null. */
struct vcpu_posted vcpu_post_row(struct vcpu *v, const struct vcpu_post *posts, size_t count);
/* hvip |= bits. */
uint64_t vcpu_latch_hvip(struct vcpu *v, uint64_t bits);
/* The result of VCPU_EXIT_SEND_IPI: VCPU_IPI_SUCCESS, VCPU_IPI_INVALID_PARAMETER; any other number is VCPU_IPI_FAILED. abi 0 is
 * VCPU_IPI_LEGACY, any other VCPU_IPI_SBI_V02. */
uint64_t vcpu_complete_ipi(struct vcpu *v, uint64_t abi, uint64_t completion);
/* Starts a trap: an exit, an ask or an error. The guest's set_timer calls (legacy 0, TIME fid 0) set vstimecmp and clear hvip bit 6;
 * a CSR write to stimecmp changes no bit of hvip. */
uint64_t vcpu_start(struct vcpu *v, const struct vcpu_trap *trap, struct vcpu_out *out);
/* Answers the ask that waits: an exit, an ask or an error. A number that is no ask's is VCPU_WRONG_ANSWER. */
uint64_t vcpu_answer(struct vcpu *v, const struct vcpu_answer_words *answer, struct vcpu_out *out);
/* Completes the load that waits, after VCPU_EXIT_MMIO_READ. */
uint64_t vcpu_complete_load(struct vcpu *v, uint64_t number);
/* How many bytes of a buffer of this length are to be printed, from its start: VCPU_ASK_PRINT's count while it waits, if the buffer
 * has that many; else 0. */
uint64_t vcpu_to_print(const struct vcpu *v, uint64_t length);

/* ---- Names for hosts. docs/HOSTS.md says how they are used. */

/* The eid (a7) of a guest's call to its host, VCPU_EXIT_HYPERCALL: "HVC". */
enum { VCPU_EID_HVC = 0x485643 };

/* What goes straight to the guest: load hedeleg and hideleg with these. The record's rules count on them. */
enum {
    VCPU_HEDELEG = 0xb10d, /* exceptions 0, 2, 3, 8, 12, 13 and 15 */
    VCPU_HIDELEG = 0x444   /* the guest's software, timer and external interrupt */
};

/* Interrupt vectors: of VCPU_EXIT_EXTERNAL_INTERRUPT, where they are the host's own interrupts, and of vcpu_set_pending and a post,
 * where they are the guest's. Both take 9 for the external one too. */
#define VCPU_VECTOR_SOFT (UINT64_C(1) << 63 | 1)
#define VCPU_VECTOR_TIMER (UINT64_C(1) << 63 | 5)
#define VCPU_VECTOR_EXTERNAL (UINT64_C(1) << 63 | 9)

/* The words of vcpu_out by name. Of an exit: */
enum {
    VCPU_WORD_INTERRUPT_VECTOR = 0,
    VCPU_WORD_IPI_MASK = 0,
    VCPU_WORD_IPI_BASE = 1,
    VCPU_WORD_IPI_ABI = 2,
    VCPU_WORD_UP_HART = 0,
    VCPU_WORD_UP_ENTRY = 1,
    VCPU_WORD_UP_ARGUMENT = 2,
    VCPU_WORD_DOWN_STATE = 0,
    VCPU_WORD_HYPERCALL_NUMBER = 0,
    VCPU_WORD_HYPERCALL_A0 = 2, /* a0 to a5 */
    VCPU_WORD_FAULT_ADDRESS = 0,
    VCPU_WORD_FAULT_ACCESS = 1,
    VCPU_WORD_MMIO_ADDRESS = 0,
    VCPU_WORD_MMIO_BYTES = 1,
    VCPU_WORD_MMIO_DATA = 2
};
/* and of an ask: */
enum {
    VCPU_WORD_FETCH_ADDRESS = 0,
    VCPU_WORD_FETCH_SUPERVISOR = 1,
    VCPU_WORD_COPY_ADDRESS = 0,  /* VCPU_ASK_COPY_MASK, _COPY_IN, _COPY_OUT */
    VCPU_WORD_COPY_COUNT = 1,    /* VCPU_ASK_COPY_IN, _COPY_OUT */
    VCPU_WORD_CONSOLE_COUNT = 0, /* VCPU_ASK_PRINT, _READ_CONSOLE */
    VCPU_WORD_EMIT_CHARACTER = 0,
    VCPU_WORD_FORWARD_EID = 0,
    VCPU_WORD_FORWARD_FID = 1,
    VCPU_WORD_FORWARD_A0 = 2 /* a0 to a5 */
};

/* Whether a reply is an ask. Its number is then reply - VCPU_ASK. */
static inline int vcpu_is_ask(uint64_t reply) {
    return reply > VCPU_ASK && reply <= VCPU_ASK + VCPU_ASK_FORWARD;
}

/* Whether a trap is the second half of a load or store that crosses a page's end: the hart reports the second page, and bits 19..15
 * of the transformed word say how far before it the access began. The handler would serve it as a whole access at the second page,
 * and the guest would get wrong data. Ask before vcpu_start. Where htinst is 0 nothing tells it. */
static inline int vcpu_crosses_page(const struct vcpu_trap *trap) {
    return (trap->scause == 21 || trap->scause == 23) && (trap->htinst >> 15 & 31) != 0;
}

#ifdef __cplusplus
}
#endif

#endif
