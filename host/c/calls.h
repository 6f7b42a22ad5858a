/* Calls on a record as words, made up from a seed and made on the library: host/tests/common/mod.rs in C. The two make the same
 * calls from the same seed, so that a run in Rust, which is held against a plain Rust program, and a run in C on any processor
 * end in the same sum. C leaves the order of arguments open, so each number is drawn in a statement of its own. */
#ifndef CALLS_H
#define CALLS_H
#include "curbizzolu.h"

#include <inttypes.h>
#include <stdio.h>
#include <stdlib.h>
#include <string.h>

typedef uint64_t word;

struct call {
    word kind, n[5];
};

struct reply {
    word code, out[8];
};

/* ---- random numbers */

static word state;

static word number(void) {
    word z = state += 0x9E3779B97F4A7C15u;
    z = (z ^ (z >> 30)) * 0xBF58476D1CE4E5B9u;
    z = (z ^ (z >> 27)) * 0x94D049BB133111EBu;
    return z ^ (z >> 31);
}

static word below(word bound) {
    return (word)(((unsigned __int128)number() * bound) >> 64);
}

static word edgy(void) {
    switch (below(12)) {
    case 0: return 0;
    case 1: return 1;
    case 2: return UINT64_MAX;
    case 3: return below(16);
    case 4: return below(5000);
    case 5: return -below(16);
    case 6: return (word)1 << below(64);
    case 7: return ((word)1 << below(64)) - 1;
    case 8: return (uint32_t)number();
    default: return number();
    }
}

static word instruction(void) {
    word any = number(), f3 = below(8) << 12, w;
    switch (below(8)) {
    case 0: case 1: case 2: w = (any & 0xffff8f80) | f3 | 0x03; break;
    case 3: case 4: case 5: w = (any & 0xffff8f80) | f3 | 0x23; break;
    case 6: w = (any & 0x000f8f80) | f3 | 0x14d00073; break;
    default: w = any & 0xffffffff;
    }
    if (below(8) == 0)
        w ^= (word)1 << below(32);
    return w;
}

static word room(void) {
    switch (below(8)) {
    case 0: return 0;
    case 1: return edgy();
    case 2: return 4095 + below(3);
    default: return below(64);
    }
}

/* ---- the next call */

static struct call made(word kind, int numbers) {
    struct call c = {kind, {0}};
    for (int i = 0; i < numbers; i++)
        c.n[i] = edgy();
    return c;
}

/* Numbers that are no ask's. */
static word no_ask(void) {
    static const word numbers[3] = {0, 10, UINT64_MAX};
    return numbers[below(3)];
}

/* The length of a buffer to print n bytes of. */
static word length(word n) {
    switch (below(6)) {
    case 0: return 0;
    case 1: return below(64);
    case 2: return n - 1;
    case 3: return n;
    case 4: return n + 1;
    default: return edgy();
    }
}

static word completion(void) {
    static const word results[3] = {VCPU_IPI_SUCCESS, VCPU_IPI_INVALID_PARAMETER, VCPU_IPI_FAILED};
    switch (below(8)) {
    case 0: return below(4);
    case 1: return edgy();
    default: return results[below(3)];
    }
}

static struct call answer(const word *record, word ask) {
    struct call c = {11, {0}};
    word n = record[55];
    c.n[0] = below(16) == 0 ? no_ask() : ask;
    switch (ask) {
    case 1: {
        word fault = below(2) == 0 ? 0 : below(7), w = instruction();
        c.n[1] = fault == 0 ? w : edgy();
        c.n[2] = fault;
        break;
    }
    case 2:
        c.n[1] = below(4) == 0 ? edgy() : 8;
        c.n[2] = number();
        break;
    case 3: case 6:
        c.n[1] = below(4) == 0 ? edgy() : n;
        c.n[2] = edgy();
        break;
    case 5:
        c.n[1] = below(4) == 0 ? edgy() : 0;
        c.n[2] = below(4) == 0 ? edgy() : below((n < 5000 ? n : 5000) + 2);
        break;
    default:
        c.n[1] = edgy();
        c.n[2] = edgy();
    }
    return c;
}

static struct call start(word *record) {
    static const word eids[20] = {0, 1, 2, 3, 4, 5, 6, 7, 8, 0x54494D45, 0x735049, 0x48534D, 0x485643, 0x53525354,
                                  0x4442434E, 0x4442434E, 0x4442434E, 0x52464E43, 0x504D55, 0x10};
    static const word odd[5] = {0x3000, 0x3020, 0x2000, 0x100000000, 0x100003000};
    struct call c = {10, {0}};
    c.n[4] = room();
    word way = below(16);
    if (way < 8) {
        word eid = eids[below(20)];
        record[17] = below(16) == 0 ? edgy() : eid;
        record[16] = below(8) == 0 ? edgy() : below(8);
        record[10] = below(2) == 0 ? below(64) : edgy();
        record[11] = edgy();
        record[12] = below(8) == 0 ? edgy() : 0;
        c.n[0] = 10;
        c.n[1] = edgy();
        c.n[2] = edgy();
        c.n[3] = edgy();
    } else if (way < 10) {
        word w = instruction();
        c.n[0] = 22;
        switch (below(4)) {
        case 0: c.n[1] = edgy(); break;
        case 1: c.n[1] = (number() << 32) | w; break;
        default: c.n[1] = (number() << 32) | (w & 0x000fff80) | 0x14d00073;
        }
        c.n[2] = edgy();
        c.n[3] = edgy();
    } else if (way < 14) {
        word w = instruction(), htinst;
        switch (below(8)) {
        case 0: case 1: htinst = 0; break;
        case 2: htinst = w & ~(word)2; break;
        case 3: htinst = odd[below(5)]; break;
        case 4: htinst = (number() << 32) | w; break;
        default: htinst = w;
        }
        c.n[0] = (w & 0x7f) == 0x23 ? 23 : 21;
        if (below(8) == 0)
            c.n[0] = 44 - c.n[0];
        c.n[1] = edgy();
        c.n[2] = edgy();
        c.n[3] = htinst;
    } else {
        if (way == 14) {
            word code = below(28);
            c.n[0] = below(2) == 0 ? code : code + ((word)1 << 63);
        } else {
            c.n[0] = edgy();
        }
        c.n[1] = edgy();
        c.n[2] = edgy();
        c.n[3] = edgy();
    }
    return c;
}

/* A row of posts: how many, and sixteen in each of four words. */
static struct call row(void) {
    struct call c = {15, {0}};
    switch (below(4)) {
    case 0: c.n[0] = below(3); break;
    case 1: c.n[0] = edgy(); break;
    default: c.n[0] = below(65);
    }
    for (int i = 1; i < 5; i++) {
        c.n[i] = number();
        if (below(4) != 0)
            c.n[i] &= 0xbbbbbbbbbbbbbbbbu;
    }
    return c;
}

/* The posts that it stands for, 64 at most, four bits a post: docs/CALLS.md. */
static size_t row_of(const struct call *c, struct vcpu_post posts[64]) {
    static const word vectors[8] = {VCPU_VECTOR_SOFT, VCPU_VECTOR_TIMER, 9, VCPU_VECTOR_EXTERNAL, 5, (word)1 << 63 | 2, 0, UINT64_MAX};
    size_t count = c->n[0] < 64 ? c->n[0] : 64;
    for (size_t i = 0; i < count; i++) {
        word bits = c->n[1 + i / 16] >> (4 * (i % 16)) & 15;
        posts[i].vector = vectors[bits & 7];
        posts[i].level = bits >> 3 << 63;
    }
    return count;
}

/* What a row gives, as a reply: the refusal in the returned number, how many were applied in the first word. */
static struct reply rowed(struct vcpu_posted given) {
    struct reply r = {given.refusal == 0 ? VCPU_DONE : VCPU_ERROR + given.refusal, {given.applied}};
    return r;
}

static struct call next_call(word *record) {
    static const word asks[13] = {0, 0, 1, 1, 2, 3, 4, 5, 6, 7, 7, 8, 9};
    switch (below(16)) {
    case 0: {
        word i = below(58);
        record[i] = edgy();
        break;
    }
    case 1:
        record[54] = below(15);
        record[55] = below(2) == 0 ? below(40) : edgy();
        record[56] = below(2) == 0 ? (word)1 << below(4) : edgy();
        record[57] = below(3);
        break;
    case 2:
        record[33] = number();
        record[34] = number();
        record[35] = number();
        break;
    }
    struct call c = {0};
    if (record[54] == 6 && below(4) == 0) {
        c.kind = 13;
        c.n[0] = length(record[55]);
        return c;
    }
    word ask = record[54] < 13 ? asks[record[54]] : 0;
    if (ask != 0 && below(8) != 0)
        return answer(record, ask);
    if (record[54] == 1 && below(4) != 0)
        return made(12, 1);
    word way = below(64);
    switch (way) {
    case 0: return made(1, 0);
    case 1: return made(2, 1);
    case 2: c.kind = 3; c.n[0] = below(34); return c;
    case 3: return made(3, 1);
    case 4: c.kind = 4; c.n[0] = below(34); c.n[1] = edgy(); return c;
    case 5: return made(4, 2);
    case 6: return made(5, 1);
    case 7: case 8:
        c.kind = 6;
        c.n[0] = 2 + below(4);
        c.n[1] = below(4) == 0 ? edgy() : c.n[0] + 5;
        c.n[2] = edgy();
        if (below(4) != 0)
            c.n[2] <<= 14;
        return c;
    case 9: case 10: {
        c.kind = 7;
        word code = below(12);
        c.n[0] = below(2) == 0 ? code : code + ((word)1 << 63);
        c.n[1] = below(3);
        return c;
    }
    case 11: return made(7, 2);
    case 12: return made(8, 1);
    case 13: c.kind = 9; c.n[0] = below(3); c.n[1] = completion(); return c;
    case 14:
        c.kind = 11;
        c.n[0] = below(2) == 0 ? below(12) : no_ask();
        c.n[1] = edgy();
        c.n[2] = edgy();
        return c;
    case 15: return made(12, 1);
    case 16: case 17: c.kind = 13; c.n[0] = length(record[55]); return c;
    case 18: return made(14, 2);
    case 19: return row();
    default: return start(record);
    }
}

/* ---- a call on the library */

/* Where the call takes an out, each of its words is 99 before: the library sets them all. */
static struct reply make(word *record, const struct call *c) {
    struct vcpu *v = (struct vcpu *)record;
    struct vcpu_out out = {{0}};
    if (c->kind == 3 || c->kind == 10 || c->kind == 11)
        for (int i = 0; i < 8; i++)
            out.word[i] = 99;
    struct vcpu_trap trap = {c->n[0], c->n[1], c->n[2], c->n[3], c->n[4]};
    struct vcpu_answer_words given = {c->n[0], c->n[1], c->n[2]};
    struct vcpu_post posts[64];
    struct reply r;
    if (c->kind == 15)
        return rowed(vcpu_post_row(v, posts, row_of(c, posts)));
    switch (c->kind) {
    case 1: r.code = vcpu_setup(v); break;
    case 2: r.code = vcpu_set_entry(v, c->n[0]); break;
    case 3: r.code = vcpu_get_gpr(v, c->n[0], &out); break;
    case 4: r.code = vcpu_set_gpr(v, c->n[0], c->n[1]); break;
    case 5: r.code = vcpu_set_return_value(v, c->n[0]); break;
    case 6: r.code = vcpu_set_nested_page_table(v, c->n[0], c->n[1], c->n[2]); break;
    case 7: r.code = vcpu_set_pending(v, c->n[0], c->n[1]); break;
    case 8: r.code = vcpu_latch_hvip(v, c->n[0]); break;
    case 9: r.code = vcpu_complete_ipi(v, c->n[0], c->n[1]); break;
    case 10: r.code = vcpu_start(v, &trap, &out); break;
    case 11: r.code = vcpu_answer(v, &given, &out); break;
    case 12: r.code = vcpu_complete_load(v, c->n[0]); break;
    case 13: out.word[0] = vcpu_to_print(v, c->n[0]); r.code = VCPU_VALUE; break;
    case 14: r.code = vcpu_new(v, c->n[0], c->n[1]); break;
    default: fprintf(stderr, "no call of kind %" PRIu64 "\n", c->kind); exit(2);
    }
    memcpy(r.out, out.word, sizeof r.out);
    return r;
}

/* ---- sums */

static word sum_word(word sum, word w) {
    word z = (((sum << 7) | (sum >> 57)) ^ w) + 0x9E3779B97F4A7C15u;
    return z ^ (z >> 29);
}

/* The sum of what a call gave and of the record after it. */
static word sum_given(word sum, const word *record, const struct reply *r) {
    for (int i = 0; i < 8; i++)
        sum = sum_word(sum, r->out[i]);
    for (int i = 0; i < 58; i++)
        sum = sum_word(sum, record[i]);
    return sum;
}

/* The same, with the returned number before it. */
static word sum_call(word sum, const word *record, const struct reply *r) {
    return sum_given(sum_word(sum, r->code), record, r);
}

#endif
