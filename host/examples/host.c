/* The calls in C, shorter than host.rs: a list of traps with what is asked for each. It enters no guest; examples/hypervisor does.
 * tools/host-c builds and runs it. */
#include "curbizzolu.h"

#include <inttypes.h>
#include <stdio.h>

/* What the guest's memory would hold. */
static const char line[] = "title 7 is on screen 3";
static const uint64_t code_at = 0x8000000c, code = 0x4188; /* c.lw a0, 0(a1), 16 bits long */

/* One trap to its exit: every ask is answered from here. */
static uint64_t handle(struct vcpu *v, struct vcpu_trap trap, struct vcpu_out *out) {
    uint64_t given = vcpu_start(v, &trap, out);
    while (vcpu_is_ask(given)) {
        struct vcpu_answer_words answer = {given - VCPU_ASK, 0, 0};
        switch (answer.ask) {
        case VCPU_ASK_FETCH:
            if (out->word[0] == code_at) {
                printf("  fetch at %#" PRIx64 ": %#" PRIx64 "\n", out->word[0], code);
                answer.first = code;
                answer.second = VCPU_FETCH_WORD;
                break;
            }
            printf("  fetch at %#" PRIx64 ": no page\n", out->word[0]);
            answer.first = out->word[0];
            answer.second = VCPU_FETCH_PAGE;
            break;
        case VCPU_ASK_COPY_IN:
            printf("  copy %" PRIu64 " bytes from %#" PRIx64 "\n", out->word[1], out->word[0]);
            answer.first = out->word[1];
            break;
        case VCPU_ASK_PRINT:
            printf("  print: %.*s\n", (int)vcpu_to_print(v, sizeof line - 1), line);
            answer.second = out->word[0];
            break;
        default:
            answer.first = (uint64_t)-2; /* not supported */
        }
        given = vcpu_answer(v, &answer, out);
    }
    return given;
}

static void load(struct vcpu *v, const char *what, uint64_t htinst, uint64_t device) {
    struct vcpu_out out;
    struct vcpu_trap trap = {21, 0, 0x10000000 >> 2, htinst, 4096};
    if (handle(v, trap, &out) == VCPU_EXIT_MMIO_READ)
        vcpu_complete_load(v, device);
    printf("%s: sepc %#" PRIx64 ", a0 %#" PRIx64 ", vscause %" PRIu64 "\n", what, v->sepc, v->x[10], v->vscause);
}

int main(void) {
    struct vcpu v;
    struct vcpu_out out;
    struct vcpu_trap ecall = {10, 0, 0, 0, 4096};
    vcpu_new(&v, 0, 0x82000000);
    vcpu_setup(&v);
    vcpu_set_entry(&v, 0x80000000);

    load(&v, "a fingerprint by lw", 0x2503, 0x1c3a77e1);
    load(&v, "its top bit set, by lw", 0x2503, 0x9c3a77e1);
    load(&v, "the same by lwu", 0x6503, 0x9c3a77e1);
    load(&v, "the same by a compressed lw", 0, 0x9c3a77e1);

    v.x[17] = 0x4442434E, v.x[16] = 0, v.x[10] = sizeof line - 1, v.x[11] = 0x80100000, v.x[12] = 0;
    uint64_t given = handle(&v, ecall, &out);
    printf("a line by DBCN: exit %" PRIu64 ", a0 %" PRIu64 ", a1 %" PRIu64 "\n", given, v.x[10], v.x[11]);

    v.x[17] = 0x735049, v.x[16] = 0, v.x[10] = 6, v.x[11] = 0;
    if (handle(&v, ecall, &out) == VCPU_EXIT_SEND_IPI) {
        printf("an IPI: mask %#" PRIx64 ", base %" PRIu64 "\n", out.word[0], out.word[1]);
        vcpu_complete_ipi(&v, out.word[2], VCPU_IPI_SUCCESS);
    }

    vcpu_set_pending(&v, VCPU_VECTOR_TIMER, 1);
    v.x[17] = 0x54494D45, v.x[16] = 0, v.x[10] = 0x100000;
    given = handle(&v, ecall, &out);
    printf("TIME while a tick is pending: exit %" PRIu64 ", vstimecmp %#" PRIx64 ", hvip %#" PRIx64 "\n", given, v.vstimecmp, v.hvip);

    struct vcpu_post row[] = {{VCPU_VECTOR_EXTERNAL, 1}, {VCPU_VECTOR_SOFT, 1}, {7, 1}, {VCPU_VECTOR_EXTERNAL, 0}};
    struct vcpu_posted posted = vcpu_post_row(&v, row, sizeof row / sizeof *row);
    printf("a row of 4 posts: %" PRIu64 " applied, refusal %" PRIu64 ", hvip %#" PRIx64 "\n", posted.applied, posted.refusal, v.hvip);

    v.hstatus &= ~0x100ull, v.sstatus &= ~0x100ull; /* SPVP and SPP, as the hart leaves them where user code trapped */
    load(&v, "a fetch of user code that faults", 0, 0);
    printf("the guest takes it in mode %d, from mode %d (0 user, 1 supervisor)\n", (int)(v.sstatus >> 8 & 1), (int)(v.vsstatus >> 8 & 1));
    printf("out of turn: %#" PRIx64 "\n", vcpu_complete_load(&v, 0));
    return 0;
}
