/* The guest: exercises each class of trap and judges its own results, a line each. ok: as SBI, PRIV and ISA have it. gap: as document 01
 * has it, where 01 is otherwise (docs/DIFFERENCES.md). FAIL: neither. */
#ifndef GUEST_H
#define GUEST_H

#include "csr.h"
#include "knobs.h"

#define DEVICE 0x10000000ull
#define NOWHERE 0x70000000ull /* neither memory nor a device */
#define FINGERPRINT 0xefeeddccbbaa9988ull /* what the device holds at 0 */
#define IRQ (1ull << 63)

enum {
    BASE = 0x10, TIME = 0x54494D45, SPI = 0x735049, HSM = 0x48534D, SRST = 0x53525354, DBCN = 0x4442434E, RFNC = 0x52464E43, PMU = 0x504D55,
    HVC = 0x485643
};
#define FAILED (-1ull)
#define NOT_SUPPORTED (-2ull)
#define INVALID_PARAMETER (-3ull)

#ifdef __riscv_compressed
enum { COMPRESSED = 1 };
#else
enum { COMPRESSED = 0 };
#endif

struct result {
    u64 error, value;
};
struct result sbi(u64 eid, u64 fid, u64 a0, u64 a1, u64 a2, u64 a3, u64 a4, u64 a5);
#define call(eid, fid, a0, a1, a2) sbi(eid, fid, (u64)(a0), (u64)(a1), (u64)(a2), 0, 0, 0)
void knob(u64 which, u64 to);
u64 seen(u64 what);

void say(const char *text);
void check(const char *name, u64 got, u64 want);
void known(const char *name, u64 got, u64 want, u64 by_01); /* by_01: what 01 gives where that is not what it should be */

/* What the guest's trap handler counted and saw last; from is SPP, the mode: 0 user, 1 supervisor. */
extern volatile u64 cause, epc, from, faults, ticks, ipis, externals;
extern volatile enum off { BY_TIME, BY_STIMECMP, BY_LEGACY } off; /* how the handler ends a tick */

/* start.S */
extern char user_done[], user_load[], user_store[], user_amo[], user_csr[];
u64 run_user(u64 pc, u64 a1); /* user code from pc on; a0 at its ecall */

/* Loads from a1 into a0, which held 0x77 before, and stores. Where C is there the assembler makes lw, ld, sw, sd 16 bits long. */
#define LOAD(op, at) ({ register u64 p_ asm("a1") = (at); register u64 r_ asm("a0") = 0x77; \
    asm volatile(op " %0, 0(%1)" : "+r"(r_) : "r"(p_) : "memory"); r_; })
#define STORE(op, at, n) ({ register u64 p_ asm("a1") = (at); register u64 r_ asm("a0") = (n); \
    asm volatile(op " %0, 0(%1)" ::"r"(r_), "r"(p_) : "memory"); })
/* The same in 32 bits. */
#define LONG(op) ".option push\n .option norvc\n " op "\n .option pop"
#define LOAD_LONG(op, at) ({ register u64 p_ asm("a1") = (at); register u64 r_ asm("a0") = 0x77; \
    asm volatile(LONG(op " %0, 0(%1)") : "+r"(r_) : "r"(p_) : "memory"); r_; })
#define STORE_LONG(op, at, n) ({ asm volatile(LONG(op " %0, 0(%1)") ::"r"((u64)(n)), "r"((u64)(at)) : "memory"); })

void sbi_calls(void);
void device(void);
void timers(void);
void ram(void);
void paging(void);

#endif
