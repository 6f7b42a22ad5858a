/* Traps of one kind, to see what each takes: traps KIND NUMBER. A trap goes with its answers and its completion. All that a guest may
 * choose within the kind is drawn for each: registers and their content, its CSRs, funct3, the length, offsets. So is what a host or a
 * device gives. The status is 1 where a trap ends otherwise than its kind does, and 2 where there is no such kind. */
#include "curbizzolu.h"

#include <stdio.h>
#include <stdlib.h>
#include <string.h>

#define RD (UINT64_C(31) << 7)
#define RS1 (UINT64_C(31) << 15)
#define RS2 (UINT64_C(31) << 20)
#define LENGTH UINT64_C(2) /* htinst's bit that is clear for an instruction of two bytes */
#define LOAD_OFFSET UINT64_C(0xfff00000)
#define STORE_OFFSET UINT64_C(0xfe000f80)

static const struct kind {
    const char *name;
    uint64_t ends; /* in this exit */
    uint64_t scause, a7, a6, a6_drawn;
    uint64_t word, word_drawn; /* the instruction, and its bits that are drawn */
    const char *funct3;        /* the legal ones */
    int fetched;               /* the hart leaves it to be fetched */
    uint64_t fault;            /* the fetch ends in this one, at any address; 0: in the word */
} kinds[] = {
    {"time", 0, 10, 0x54494D45, 0, 0, 0, 0, "0", 0}, /* TIME, fid 0 */
    {"legacy-timer", 0, 10, 0, 0, 0, 0, 0, "0", 0},  /* legacy 0 */
    {"forward", 0, 10, 0x10, 0, 7, 0, 0, "0", 0},    /* BASE, and its answer */
    {"byte", 0, 10, 0x4442434E, 2, 0, 0, 0, "0", 0}, /* DBCN, fid 2, and its answer */
    {"stimecmp", 0, 22, 0, 0, 0, 0x14d00073, RD | RS1, "123567", 0},
    {"load", 9, 21, 0, 0, 0, 1, RD | RS1 | LENGTH, "0123456", 0}, /* and its completion */
    {"store", 10, 23, 0, 0, 0, 0x21, RS1 | RS2 | LENGTH, "0123", 0},
    {"stimecmp-fetched", 0, 22, 0, 0, 0, 0x14d00073, RD | RS1, "123567", 1},
    {"load-fetched", 9, 21, 0, 0, 0, 3, RD | RS1 | LOAD_OFFSET, "0123456", 1},
    {"store-fetched", 10, 23, 0, 0, 0, 0x23, RS1 | RS2 | STORE_OFFSET, "0123", 1},
    /* of 16 bits, by the access and the quadrant: bit 13, drawn, is the width */
    {"c-load-fetched", 9, 21, 0, 0, 0, 0x4000, 0x3ffc, "0", 1},
    {"c-sp-load-fetched", 9, 21, 0, 0, 0, 0x4082, 0x3f7c, "0", 1}, /* with an rd that is odd, and so not 0 */
    {"c-store-fetched", 10, 23, 0, 0, 0, 0xc000, 0x3ffc, "0", 1},
    {"c-sp-store-fetched", 10, 23, 0, 0, 0, 0xc002, 0x3ffc, "0", 1},
    {"csr-page-fault", 0, 22, 0, 0, 0, 0, UINT64_MAX, "0", 1, VCPU_FETCH_PAGE},
    {"load-page-fault", 0, 21, 0, 0, 0, 0, UINT64_MAX, "0", 1, VCPU_FETCH_PAGE},
    {"store-page-fault", 0, 23, 0, 0, 0, 0, UINT64_MAX, "0", 1, VCPU_FETCH_PAGE},
    {"interrupt", 1, UINT64_C(1) << 63 | 9, 0, 0, 0, 0, 0, "0", 0},
};

/* SplitMix64 */
static uint64_t drawn(void) {
    static uint64_t seed = 1;
    uint64_t z = seed += UINT64_C(0x9E3779B97F4A7C15);
    z = (z ^ z >> 30) * UINT64_C(0xBF58476D1CE4E5B9);
    z = (z ^ z >> 27) * UINT64_C(0x94D049BB133111EB);
    return z ^ z >> 31;
}

int main(int argc, char **argv) {
    if (argc != 3)
        return 2;
    for (size_t k = 0; k < sizeof kinds / sizeof *kinds; k++) {
        const struct kind *kind = &kinds[k];
        if (strcmp(kind->name, argv[1]) != 0)
            continue;
        uint64_t words[58];
        struct vcpu v;
        struct vcpu_out out;
        for (uint64_t n = strtoull(argv[2], NULL, 10); n > 0; n--) {
            for (size_t i = 0; i < 58; i++)
                words[i] = i < 54 ? drawn() : 0; /* and nothing waits */
            memcpy(&v, words, sizeof v);
            v.x[17] = kind->a7;
            v.x[16] = kind->a6 | (drawn() & kind->a6_drawn);
            uint64_t funct3 = (uint64_t)(kind->funct3[drawn() % strlen(kind->funct3)] - '0');
            uint64_t word = kind->word | (drawn() & kind->word_drawn) | funct3 << 12;
            uint64_t shown = kind->fetched ? 0 : word;
            struct vcpu_trap trap = {kind->scause, kind->scause == 22 ? shown : drawn(), drawn(), shown, 4096};
            uint64_t given = vcpu_start(&v, &trap, &out);
            while (given > VCPU_ASK && given < VCPU_DONE) {
                struct vcpu_answer_words answer = {given - VCPU_ASK, kind->fetched ? word : drawn(), kind->fetched ? kind->fault : drawn()};
                given = vcpu_answer(&v, &answer, &out);
            }
            if (given != kind->ends || (given == VCPU_EXIT_MMIO_READ && vcpu_complete_load(&v, drawn()) != VCPU_DONE))
                return 1;
        }
        return 0;
    }
    return 2;
}
