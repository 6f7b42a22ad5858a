/* A small hypervisor on one hart, around the proved exit handler. */
#ifndef HYPERVISOR_H
#define HYPERVISOR_H

#include "csr.h"
#include "curbizzolu.h"

#define GUEST_RAM 0x80000000ull    /* where a guest finds its memory */
#define GUEST_DEVICE 0x10000000ull /* and its match device */
#define ROOM 64                    /* of the console buffer */
#define NOT_SUPPORTED (-2ull)      /* SBI's error numbers */
#define INVALID_PARAMETER (-3ull)

/* Holds a title's fingerprint, takes a candidate, and tells whether they match (device.c). */
struct match_device {
    u64 fingerprint, candidate;
};

struct guest {
    struct vcpu v; /* first: entry.S finds x[i] at 8 * i */
    u64 host_sp;   /* entry.S: the host's stack while the guest runs */
    u64 f[33];     /* f0 to f31 and fcsr while another guest runs */
    /* The guest's CSRs that the record has no place for. scounteren and senvcfg have no VS twin: a guest writes the hart's own. */
    u64 vsatp, vsscratch, scounteren, senvcfg, htimedelta, henvcfg;
    u64 *root;          /* its G-stage page table */
    unsigned char *ram; /* its memory, ram_size bytes at GUEST_RAM; a page is mapped when the guest touches it */
    u64 ram_size;
    struct match_device device;
    unsigned char buffer[ROOM]; /* the console buffer that the handler is lent */
    char name, line[160];       /* what the guest wrote since its last line end */
    int column, down;           /* down: it is off, and never entered again */
};

/* entry.S */
void enter(struct guest *g);                      /* runs the guest until it traps */
u64 peek(u64 va, u64 execute, u64 *to);           /* reads guest memory; 0, or the fault's scause plus 1 */
void save_fp(u64 *f);
void load_fp(const u64 *f);

/* firmware.c: the SBI below, and what is printed on its console */
u64 firmware(u64 eid, u64 fid, const u64 *args, u64 *value);
void say(const char *text);
void say_hex(const char *before, u64 n);
void stop(void);
void *memset(void *to, int byte, size_t n);
void *memcpy(void *to, const void *from, size_t n);

/* memory.c */
void *pages(u64 n);
unsigned char *ram_at(struct guest *g, u64 gpa, u64 n); /* where these n bytes of guest memory lie; 0 where there are none */
void map(struct guest *g, u64 gpa);
int cure(struct guest *g, const struct vcpu_trap *t);   /* whether the trap was a page of RAM that was not mapped, and is */
u64 read_virtual(struct guest *g, u64 va, u64 execute, u64 *to);

/* console.c */
void console_write(struct guest *g, char c);
u64 console_char(struct guest *g);                                  /* or -1 */
u64 console_read(struct guest *g, unsigned char *to, u64 most);

/* device.c */
u64 device_read(struct guest *g, u64 gpa, u64 bytes);
void device_write(struct guest *g, u64 gpa, u64 bytes, u64 data);

/* A trap: trap.c calls the others. */
void one_trap(struct guest *g, u64 slice_end);
void load(struct guest *g, u64 slice_end);        /* world.c: the guest into the hart */
void save(struct guest *g, struct vcpu_trap *t);  /* world.c: and out of it, with the trap's numbers */
u64 keep_timer(struct guest *g);                  /* timer.c: when the guest's timer is due by the host's clock */
void serve(struct guest *g, const u64 *word, struct vcpu_answer_words *a);            /* asks.c */
void fetch(struct guest *g, u64 va, u64 supervisor, struct vcpu_answer_words *a);     /* fetch.c */
void finish(struct guest *g, const struct vcpu_trap *t, u64 reply, const u64 *word);  /* exits.c */
void inject(struct vcpu *v, u64 cause, u64 value);                                    /* exits.c */
u64 hypercall(struct guest *g, u64 number, const u64 *args);                          /* hypercall.c: a0's later content */

/* guests.c */
extern u64 host_hart;
int names_a_hart(u64 mask, u64 base); /* SBI's hart mask: 1 the guest's one hart, 0 none, -1 a hart that it has not */
void boot(u64 hart);
void make(struct guest *g, char name, const unsigned char *image, const unsigned char *end, u64 ram_size);
void run(struct guest *g, int n, u64 slice);

#endif
