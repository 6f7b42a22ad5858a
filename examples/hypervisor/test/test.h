#ifndef TEST_H
#define TEST_H

#include "hypervisor.h"

/* transform.c: htinst for a load or store at v->sepc as PRIV has it, or 0 */
u64 transformed(struct guest *g, const struct vcpu_trap *t);

/* trace.c: a line for each new kind of trap */
void trace_start(const struct vcpu *v, const struct vcpu_trap *t, u64 hart_htinst);
void trace_reply(u64 reply);
void trace_end(void);

#endif
