/* The fixed list by the thin entry over words, libwords_entry.a: list.c, with its calls made by its two functions. */
#include "calls.h"

/* What it gives: 0 an exit, 1 an ask, 2 done, 3 a value, 4 an error; its number; what it carries; a hypercall's a0 to a5. */
struct given {
    word kind, number, values[8], args[6];
};
void vcpu_call_at(struct given *given, word *record, const struct call *call);
struct vcpu_posted vcpu_call_posts(word *record, const struct vcpu_post *posts, size_t count);

static struct reply by_words(word *record, const struct call *c) {
    static const word code[] = {0, VCPU_ASK, VCPU_DONE, VCPU_VALUE, VCPU_ERROR};
    struct vcpu_post posts[64];
    struct given g;
    struct reply r;
    if (c->kind == 15)
        return rowed(vcpu_call_posts(record, posts, row_of(c, posts)));
    memset(&g, 99, sizeof g);
    vcpu_call_at(&g, record, c);
    if (g.kind > 4) {
        fprintf(stderr, "a reply of kind %" PRIu64 "\n", g.kind);
        exit(2);
    }
    r.code = code[g.kind] + g.number;
    memcpy(r.out, g.values, sizeof r.out);
    for (int i = 0; i < 6; i++) /* 0 beside any other reply, whose numbers from word 2 on are not lost */
        r.out[i + 2] |= g.args[i];
    return r;
}

#define make by_words
#include "list.c"
