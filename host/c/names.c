/* The header's tests and names, on numbers: tools/host-c builds and runs it. It prints a line for each that is wrong. */
#include "curbizzolu.h"

#include <inttypes.h>
#include <stdio.h>

static int wrong;

static void check(const char *what, uint64_t number, int got, int want) {
    if (got != want) wrong++, printf("%s %#" PRIx64 ": %d, and it should be %d\n", what, number, got, want);
}

static void crossing(uint64_t scause, uint64_t htinst, int want) {
    struct vcpu_trap trap = {scause, 0, 0, htinst, 0};
    check("vcpu_crosses_page, htinst", htinst, vcpu_crosses_page(&trap), want);
}

/* A guest's call is a hypercall, and its words are where their names say. */
static void hypercall(void) {
    struct vcpu v;
    struct vcpu_out out;
    struct vcpu_trap ecall = {10, 0, 0, 0, 0};
    vcpu_new(&v, 0, 0);
    v.x[17] = VCPU_EID_HVC, v.x[16] = 7, v.x[10] = 11, v.x[15] = 16;
    uint64_t reply = vcpu_start(&v, &ecall, &out);
    check("a call of VCPU_EID_HVC", reply, reply == VCPU_EXIT_HYPERCALL && out.word[VCPU_WORD_HYPERCALL_NUMBER] == 7, 1);
    uint64_t *args = out.word + VCPU_WORD_HYPERCALL_A0;
    check("its a0 and a5", args[0], args[0] == 11 && args[5] == 16, 1);
}

/* Each vector is a bit of hvip that is delegated. */
static void vectors(void) {
    static const uint64_t all[] = {VCPU_VECTOR_SOFT, VCPU_VECTOR_TIMER, VCPU_VECTOR_EXTERNAL};
    struct vcpu v;
    vcpu_new(&v, 0, 0);
    for (int i = 0; i < 3; i++) check("vector", all[i], vcpu_set_pending(&v, all[i], 1) == VCPU_DONE, 1);
    check("the vectors' bits", v.hvip, v.hvip == VCPU_HIDELEG, 1);
}

/* A reply that is an ask waits for its answer; the names tell the words of a store. */
static void asks(void) {
    struct vcpu v;
    struct vcpu_out out;
    struct vcpu_trap ecall = {10, 0, 0, 0, 0}, store = {23, 0, 0x4000000, 0x702023, 0};
    vcpu_new(&v, 0, 0);
    v.x[17] = 0x10, v.x[16] = 3;
    uint64_t reply = vcpu_start(&v, &ecall, &out);
    check("BASE is an ask", reply, vcpu_is_ask(reply) && reply - VCPU_ASK == VCPU_ASK_FORWARD, 1);
    uint64_t eid = out.word[VCPU_WORD_FORWARD_EID];
    check("its eid and fid", eid, eid == 0x10 && out.word[VCPU_WORD_FORWARD_FID] == 3, 1);
    reply = vcpu_answer(&v, &(struct vcpu_answer_words){VCPU_ASK_FORWARD, 0, 0}, &out);
    check("its end is none", reply, vcpu_is_ask(reply), 0);
    v.x[7] = 0xFFFFFFFF12345678;
    reply = vcpu_start(&v, &store, &out);
    uint64_t at = out.word[VCPU_WORD_MMIO_ADDRESS];
    check("a store", reply, reply == VCPU_EXIT_MMIO_WRITE && out.word[VCPU_WORD_MMIO_BYTES] == 4, 1);
    check("its address and data", at, at == 0x10000000 && out.word[VCPU_WORD_MMIO_DATA] == 0x12345678, 1);
    for (uint64_t n = 0; n <= 0x200; n++) check("vcpu_is_ask", n, vcpu_is_ask(n), n >= 0x21 && n <= 0x29);
}

/* A row of no posts, of which nothing is looked at, and a long one. */
static void rows(void) {
    static struct vcpu_post row[100000];
    struct vcpu v;
    vcpu_new(&v, 0, 0);
    struct vcpu_posted none = vcpu_post_row(&v, NULL, 0);
    check("a row of no posts at NULL", none.applied, none.applied == 0 && none.refusal == 0 && v.hvip == 0, 1);
    for (size_t i = 0; i < 100000; i++)
        row[i] = (struct vcpu_post){VCPU_VECTOR_TIMER, i % 2};
    row[99999].vector = 5;
    struct vcpu_posted most = vcpu_post_row(&v, row, 100000);
    check("a row of 100000 posts, the last bad", most.applied, most.applied == 99999 && most.refusal == VCPU_INVALID_INPUT && v.hvip == 0, 1);
    most = vcpu_post_row(&v, row, 99998);
    check("a row of 99998 posts", most.applied, most.applied == 99998 && most.refusal == 0 && v.hvip == 1 << 6, 1);
}

int main(void) {
    crossing(21, 0x23503, 1);  /* ld a0, that began 4 bytes before the page */
    crossing(23, 0xa2b023, 1); /* sd a0, 5 bytes before */
    static const uint64_t whole[] = {0, 0x503, 0x4503, 0x1503, 0x5503, 0x2503, 0x6503, 0x3503, 0x2501, 0xa02021, 0xa03023, 0x3000, 0x3020};
    for (unsigned i = 0; i < sizeof whole / sizeof *whole; i++) crossing(21, whole[i], 0), crossing(23, whole[i], 0);
    crossing(10, 0x23503, 0);
    hypercall();
    rows();
    vectors();
    asks();
    return wrong != 0;
}
