/* CSRs by name, and the bits of them that this host knows. */
#ifndef CSR_H
#define CSR_H

#include <stdint.h>

typedef uint64_t u64;

/* The compiler's assembler knows H where it is told of it. */
#define WITH_H(text) ".option push\n .option arch, +h\n " text "\n .option pop"
/* 0 where the access traps and the guest's handler skips it */
#define csr_get(name) ({ u64 n_ = 0; asm volatile(WITH_H("csrr %0, " #name) : "+r"(n_)::"memory"); n_; })
#define csr_put(name, n) ({ asm volatile(WITH_H("csrw " #name ", %0") ::"r"((u64)(n)) : "memory"); })
#define csr_set(name, n) ({ asm volatile("csrs " #name ", %0" ::"r"((u64)(n)) : "memory"); })
#define csr_clear(name, n) ({ asm volatile("csrc " #name ", %0" ::"r"((u64)(n)) : "memory"); })

#define SSTATUS_SPP 0x100ull
#define SSTATUS_FS_INITIAL 0x2000ull
#define VSSTATUS_SIE 0x2ull
#define VSSTATUS_SPIE 0x20ull
#define VSSTATUS_SPP 0x100ull
#define HSTATUS_SPVP 0x100ull
#define HENVCFG_STCE (1ull << 63)

#endif
