/* The test's knobs. tools/guest links the host with --wrap for each function here: the host calls __wrap_F where its files say F, and
 * __real_F is the host's own. */
#include "test.h"
#include "knobs.h"

static struct state {
    u64 knob[KNOBS], scause, htinst, reply, first_reply, reply_before, bytes, data, soft, hart_htinst, given_htinst;
} states[128];                /* by the guest's name */
static struct state *soft_for; /* whose KNOB_SOFT it was: the interrupt may come when another guest's turn has begun */

static struct state *of(const void *guest) { return &states[((const struct guest *)guest)->name & 127]; }

/* ---- the knobs' calls */

static void set(struct guest *g, u64 knob, u64 to) {
    switch (knob) {
    case KNOB_STCE:
        g->henvcfg = to ? HENVCFG_STCE : 0;
        if (to) vcpu_set_pending(&g->v, VCPU_VECTOR_TIMER, 0); /* from here on the hart's comparison is the tick */
        break;
    case KNOB_SOFT: soft_for = of(g), csr_set(sip, 2); break;
    case KNOB_LINE: vcpu_set_pending(&g->v, VCPU_VECTOR_EXTERNAL, to); break;
    case KNOB_LATCH: vcpu_latch_hvip(&g->v, to); break;
    default: of(g)->knob[knob % KNOBS] = to;
    }
}

static u64 get(struct guest *g, u64 what) {
    struct state *s = of(g);
    switch (what) {
    case GET_SCAUSE: return s->scause;
    case GET_HTINST: return s->htinst;
    case GET_REPLY: return s->reply;
    case GET_FIRST_REPLY: return s->first_reply;
    case GET_REPLY_BEFORE: return s->reply_before;
    case GET_STORE_BYTES: return s->bytes;
    case GET_STORE_DATA: return s->data;
    case GET_SOFT: return s->soft;
    case GET_END: return g->name == 'P' ? 0 : g->name == 'C' ? 1 : 2;
    }
    return what >= 1 && what <= 9 ? g->v.counts[what - 1] : 0;
}

u64 __wrap_hypercall(struct guest *g, u64 number, const u64 *args) {
    u64 sum = 0;
    switch (number) {
    case CALL_HERE: return 1;
    case CALL_SET: set(g, args[0], args[1]); return 0;
    case CALL_GET: return get(g, args[0]);
    case CALL_DIGITS:
        for (int i = 0; i < 6; i++) sum = sum * 10 + args[i];
    }
    return sum;
}

/* ---- the hart: htinst written or left 0, whatever this one does */

void __real_save(struct guest *g, struct vcpu_trap *t);
void __wrap_save(struct guest *g, struct vcpu_trap *t) {
    struct state *s = of(g);
    __real_save(g, t);
    s->hart_htinst = s->given_htinst = t->htinst;
    if (t->scause != 21 && t->scause != 22 && t->scause != 23) return;
    if (t->htinst == 0x3000 || t->htinst == 0x3020) return; /* a walk's; never 0 */
    if (s->knob[KNOB_HTINST_ZERO]) {
        t->htinst = 0;
        if (t->scause == 22) t->stval = 0;
    } else if (t->scause != 22) {
        u64 made = transformed(g, t);
        if (t->htinst && t->htinst != made)
            say_hex("FAIL htinst is ", t->htinst), say_hex(" by the hart, and the test makes ", made), say("\n");
        if (!t->htinst) t->htinst = made;
    }
    s->given_htinst = t->htinst;
}

/* trap.c's, where an access crosses a page's end and is not started. */
void __real_inject(struct vcpu *v, u64 cause, u64 value);
void __wrap_inject(struct vcpu *v, u64 cause, u64 value) {
    of(v)->htinst = of(v)->given_htinst;
    __real_inject(v, cause, value);
}

/* ---- what the handler is given and gives */

u64 __real_vcpu_start(struct vcpu *v, const struct vcpu_trap *t, struct vcpu_out *out);
u64 __wrap_vcpu_start(struct vcpu *v, const struct vcpu_trap *t, struct vcpu_out *out) {
    struct state *s = of(v);
    trace_start(v, t, s->hart_htinst);
    u64 reply = __real_vcpu_start(v, t, out);
    trace_reply(reply);
    if (t->scause == VCPU_VECTOR_SOFT && reply == VCPU_EXIT_EXTERNAL_INTERRUPT && out->word[VCPU_WORD_INTERRUPT_VECTOR] == t->scause)
        soft_for->soft++;
    if (t->scause != 10 && t->scause >> 63 == 0) s->scause = t->scause, s->htinst = t->htinst, s->first_reply = reply;
    return reply;
}

u64 __real_vcpu_answer(struct vcpu *v, const struct vcpu_answer_words *a, struct vcpu_out *out);
u64 __wrap_vcpu_answer(struct vcpu *v, const struct vcpu_answer_words *a, struct vcpu_out *out) {
    u64 reply = __real_vcpu_answer(v, a, out);
    trace_reply(reply);
    return reply;
}

void __real_fetch(struct guest *g, u64 va, u64 supervisor, struct vcpu_answer_words *a);
void __wrap_fetch(struct guest *g, u64 va, u64 supervisor, struct vcpu_answer_words *a) {
    u64 *fail = &of(g)->knob[KNOB_FAIL_FETCH];
    if (!*fail) __real_fetch(g, va, supervisor, a);
    else a->first = va, a->second = *fail, *fail = 0;
}

/* ---- a host that starts every trap, and sees afterwards that it was RAM */

int __real_cure(struct guest *g, const struct vcpu_trap *t);
int __wrap_cure(struct guest *g, const struct vcpu_trap *t) {
    if (of(g)->knob[KNOB_LIBRARY_FIRST] || !__real_cure(g, t)) return 0;
    trace_start(&g->v, t, of(g)->hart_htinst), trace_end();
    return 1;
}

void __real_finish(struct guest *g, const struct vcpu_trap *t, u64 reply, const u64 *word);
void __wrap_finish(struct guest *g, const struct vcpu_trap *t, u64 reply, const u64 *word) {
    struct state *s = of(g);
    u64 at = word[VCPU_WORD_MMIO_ADDRESS], bytes = word[VCPU_WORD_MMIO_BYTES], data = 0x5a5a5a5a5a5a5a5a; /* the handler has to cut it */
    unsigned char *p = 0;
    trace_end();
    if (t->scause != 10 && t->scause >> 63 == 0) s->reply_before = s->reply, s->reply = reply;
    if (reply == VCPU_EXIT_MMIO_READ || reply == VCPU_EXIT_MMIO_WRITE) p = ram_at(g, at, bytes);
    if (p) {
        map(g, at);
        if (reply == VCPU_EXIT_MMIO_READ) memcpy(&data, p, bytes), vcpu_complete_load(&g->v, data);
        else memcpy(p, &word[VCPU_WORD_MMIO_DATA], bytes);
    } else if (reply == VCPU_EXIT_NESTED_PAGE_FAULT && ram_at(g, word[VCPU_WORD_FAULT_ADDRESS], 1)) map(g, word[VCPU_WORD_FAULT_ADDRESS]);
    else if (reply >= VCPU_ERROR && __real_cure(g, t)) return;
    else if (reply == VCPU_ERROR + VCPU_GUEST_MEMORY_FAULT) return; /* KNOB_FAIL_FETCH made it: the guest tries again */
    else __real_finish(g, t, reply, word);
    if (g->down) {
        u64 exit = get(g, GET_END) == 2 ? VCPU_EXIT_CPU_DOWN : VCPU_EXIT_SYSTEM_DOWN;
        say((char[]){g->name, 0}), say(reply == exit ? " ok   down, by its own call\n" : " FAIL down, not by the call that it made\n");
    }
}

/* ---- timer, console, device */

u64 __real_keep_timer(struct guest *g);
u64 __wrap_keep_timer(struct guest *g) {
    u64 before = g->v.hvip, due = __real_keep_timer(g);
    if (of(g)->knob[KNOB_KEEP_TICK]) g->v.hvip |= before & 0x40;
    return due;
}

u64 __real_console_char(struct guest *g);
u64 __wrap_console_char(struct guest *g) { return of(g)->knob[KNOB_TYPED] ? '!' : __real_console_char(g); }

u64 __real_console_read(struct guest *g, unsigned char *to, u64 most);
u64 __wrap_console_read(struct guest *g, unsigned char *to, u64 most) {
    u64 n = most < 5 ? most : 5;
    if (!of(g)->knob[KNOB_TYPED]) return __real_console_read(g, to, most);
    memcpy(to, "typed", n);
    return n;
}

u64 __real_device_read(struct guest *g, u64 gpa, u64 bytes);
u64 __wrap_device_read(struct guest *g, u64 gpa, u64 bytes) {
    u64 n = __real_device_read(g, gpa, bytes);
    return bytes < 8 ? n | 0x5a5a5a5a5a5a5a5a << 8 * bytes : n; /* above the width: the handler has to cut it */
}

void __real_device_write(struct guest *g, u64 gpa, u64 bytes, u64 data);
void __wrap_device_write(struct guest *g, u64 gpa, u64 bytes, u64 data) {
    of(g)->bytes = bytes, of(g)->data = data;
    __real_device_write(g, gpa, bytes, data);
}
