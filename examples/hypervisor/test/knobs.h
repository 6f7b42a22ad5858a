/* The guest's test knobs: hypercalls that change how its host treats it, and tell what the host saw. The host has none of them
 * (hypercall.c): knobs.c takes the place of some of its functions at the link. */
#ifndef KNOBS_H
#define KNOBS_H

enum { CALL_HERE = 1, CALL_SET = 2, CALL_GET = 3, CALL_DIGITS = 4 }; /* a6; CALL_HERE gives 1, CALL_DIGITS the number that a0 to a5 spell */

/* CALL_SET, a0; a1 is what it is set to. */
enum {
    KNOB_HTINST_ZERO,   /* 1: a hart that leaves htinst 0, and stval 0 for a virtual instruction; 0: one that writes both */
    KNOB_STCE,          /* henvcfg.STCE */
    KNOB_LIBRARY_FIRST, /* 1: the host does not look for RAM before it starts a trap */
    KNOB_FAIL_FETCH,    /* the next fetch is answered with this VCPU_FETCH_ */
    KNOB_KEEP_TICK,     /* 1: with STCE 0 the host latches a tick and never takes it back */
    KNOB_TYPED,         /* 1: the console has "typed" to read */
    KNOB_SOFT,          /* the host gets a software interrupt of its own */
    KNOB_LINE,          /* the level of the guest's external interrupt */
    KNOB_LATCH,         /* these bits are latched into hvip */
    KNOBS
};

/* CALL_GET, a0. */
enum {
    GET_EVENT = 0,     /* 1 to 9: how often the event was counted */
    GET_SCAUSE = 10,   /* of the last trap that was neither an ecall nor an interrupt */
    GET_HTINST,
    GET_REPLY,         /* what it ended in */
    GET_FIRST_REPLY,   /* what it started with */
    GET_REPLY_BEFORE,  /* and what the one before it ended in */
    GET_STORE_BYTES,   /* of the last write to the device */
    GET_STORE_DATA,
    GET_SOFT,          /* how many software interrupts of the host were exits */
    GET_END            /* how the guest shall end: 0 SRST, 1 legacy shutdown, 2 HSM stop */
};

#endif
