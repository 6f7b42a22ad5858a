/* The guest's own page tables, its user mode, fetches that fault, and an access that crosses into the device. */
#include "guest.h"

#define PAGE __attribute__((aligned(4096)))
static u64 root[512] PAGE, middle[512] PAGE, leaf[512] PAGE, page[512] PAGE, other[512] PAGE;
static unsigned short code[2048] PAGE;
static u64 mask = 1;

#define TABLE(at) ((u64)(at) >> 12 << 10 | 1)
#define SUPERVISOR(at) ((u64)(at) >> 12 << 10 | 0xcf) /* D A X W R V */
#define USER(at) ((u64)(at) >> 12 << 10 | 0xdf)
#define NEW_TABLE 0xc0000000ull              /* 3 GiB: behind a table that was never touched */
#define USER_RAM(at) ((u64)(at) - 0x40000000) /* 1 GiB: memory again, for user mode */
#define USER_DEVICE (0x100000000ull + DEVICE) /* 4 GiB: and the device */
#define SMALL 0x140000000ull                  /* 5 GiB: a page of memory, the device, a page of user code, and nothing behind it */

static void tables(void) {
    root[0] = SUPERVISOR(0), root[2] = SUPERVISOR(0x80000000); /* the device and memory where they are */
    root[1] = USER(0x80000000), root[4] = USER(0), root[3] = TABLE(0x80900000);
    root[5] = TABLE(middle), middle[0] = TABLE(leaf), leaf[0] = SUPERVISOR(page), leaf[1] = SUPERVISOR(DEVICE), leaf[2] = USER(code);
    faults = 0, csr_put(satp, 8ull << 60 | (u64)root >> 12);
    check("satp is the guest's own", faults, 0);
    asm volatile("sfence.vma" ::: "memory");
    check("lwu, paged", LOAD("lwu", DEVICE + 4), 0xefeeddcc);
    check("legacy 4, IPI, mask by virtual address", call(4, 0, &mask, 0, 0).error, 0);
    check("legacy 4, IPI, mask in new RAM", call(4, 0, 0x80a00000, 0, 0).error, 0);

    page[0] = 1, other[0] = 2, *(volatile u64 *)SMALL, leaf[0] = SUPERVISOR(other);
    sbi(RFNC, 1, 1, 0, SMALL, 4096, 0, 0), check("RFNC sfence.vma: the new page is there", *(volatile u64 *)SMALL, 2);
    leaf[0] = SUPERVISOR(page), sbi(RFNC, 2, 1, 0, SMALL, 4096, 0, 0);
    check("RFNC sfence.vma with ASID: the old one again", *(volatile u64 *)SMALL, 1);

    faults = 0, knob(KNOB_LIBRARY_FIRST, 1), LOAD("lwu", NEW_TABLE), knob(KNOB_LIBRARY_FIRST, 0);
    check("a walk through new RAM: error 3", seen(GET_REPLY), 0x103), check("its htinst", seen(GET_HTINST), 0x3000);
    check("then the guest's own page fault", faults == 1 && cause == 13, 1);
}

/* An ld that begins 4 bytes before the device. It is no access of the device, and the guest is told so. */
static void crossing(void) {
    u64 n;
    faults = 0, n = LOAD_LONG("ld", SMALL + 0xffc);
    check("ld from memory into the device: a fault", faults == 1 && cause == 5 && n == 0x77, 1);
    check("its htinst", seen(GET_HTINST), 0x23503);
    knob(KNOB_HTINST_ZERO, 1), n = LOAD_LONG("ld", SMALL + 0xffc), knob(KNOB_HTINST_ZERO, 0);
    known("the same with htinst 0: a0 is kept", n, 0x77, FINGERPRINT);
    knob(KNOB_HTINST_ZERO, 1), n = LOAD("ld", SMALL + 0xffc), knob(KNOB_HTINST_ZERO, 0);
    known("the same, compressed where C is there: a0 is kept", n, 0x77, FINGERPRINT);
    /* The other way round the fault is at the access's own address, and the host sees that it is not all the device's. */
    check("ld from the device into memory: ones", LOAD_LONG("ld", SMALL + 0x1ffc), -1ull), check("its htinst", seen(GET_HTINST), 0x3503);
}

static const u64 injected[] = {0, 12, 1, 0}; /* the cause of each VCPU_FETCH_ that the guest takes itself */

static void user(void) {
    u64 code = USER_RAM(user_load), store = USER_RAM(user_store), csr = USER_RAM(user_csr);
    check("lw in user mode", run_user(code, USER_DEVICE), 0xffffffffbbaa9988), check("back by its ecall", cause, 8);
    run_user(USER_RAM(user_amo), USER_DEVICE);
    check("an AMO on the device in user mode: the guest takes the fault in S mode",
          (cause == 5 || cause == 7) && epc == USER_RAM(user_amo), 1);
    knob(KNOB_HTINST_ZERO, 1), check("lw in user mode, htinst 0", run_user(code, USER_DEVICE), 0xffffffffbbaa9988);
    check("the handler asked for the word", seen(GET_FIRST_REPLY), 0x21), check("and it was a device read", seen(GET_REPLY), 9);
    for (u64 fault = 1; fault <= 3; fault++) {
        knob(KNOB_FAIL_FETCH, fault), run_user(code, USER_DEVICE);
        check(fault == 1 ? "a fetch of user code that faults: page fault" : fault == 2 ? "access fault" : "misaligned", cause, injected[fault]);
        check("the guest takes it in S mode", epc == code, 1), check("it came from user mode", from, 0);
        knob(KNOB_FAIL_FETCH, fault), run_user(store, USER_DEVICE);
        check("the same of a store", cause == injected[fault] && epc == store && from == 0, 1);
        knob(KNOB_STCE, 0), knob(KNOB_FAIL_FETCH, fault), run_user(csr, 0), knob(KNOB_STCE, 1);
        check("the same of a virtual instruction", cause == injected[fault] && epc == csr && from == 0, 1);
    }
    /* PRIV keeps stimecmp from user code; 01 looks at no mode, and it comes to its ecall */
    knob(KNOB_STCE, 0), run_user(csr, 0), knob(KNOB_STCE, 1);
    known("stimecmp in user mode: the guest takes an illegal instruction", cause, 2, 8);
    knob(KNOB_HTINST_ZERO, 0);
}

/* c.lw a0, 0(a1) is the last of its page. A host that fetches four bytes at once meets the page that is not there. */
static void page_end(void) {
    u64 at = SMALL + 0x2ffe;
    code[2047] = 0x4188;
    asm volatile("fence.i" ::: "memory");
    check("c.lw at a page's end", run_user(at, USER_DEVICE), 0xffffffffbbaa9988);
    check("then the fetch behind it faults", cause == 12 && epc == at + 2, 1);
    knob(KNOB_HTINST_ZERO, 1);
    check("c.lw at a page's end, htinst 0", run_user(at, USER_DEVICE), 0xffffffffbbaa9988);
    knob(KNOB_HTINST_ZERO, 0);
    check("then the fetch behind it faults", cause == 12 && epc == at + 2, 1);
}

static void fetches(void) {
    u64 n;
    knob(KNOB_HTINST_ZERO, 1);
    for (u64 fault = 1; fault <= 3; fault++) {
        faults = 0, knob(KNOB_FAIL_FETCH, fault), n = LOAD("lbu", DEVICE);
        check(fault == 1 ? "a fetch with a page fault" : fault == 2 ? "with an access fault" : "misaligned",
              faults == 1 && cause == injected[fault] && n == 0x77, 1);
        check("it came from S mode", from, 1);
        faults = 0, knob(KNOB_FAIL_FETCH, fault), STORE("sb", DEVICE, 1);
        check("the same of a store", faults == 1 && cause == injected[fault] && from == 1, 1);
        faults = 0, knob(KNOB_STCE, 0), knob(KNOB_FAIL_FETCH, fault), n = csr_get(stimecmp), knob(KNOB_STCE, 1);
        check("the same of a virtual instruction", faults == 1 && cause == injected[fault] && from == 1, 1);
    }
    faults = 0, knob(KNOB_FAIL_FETCH, 4), n = LOAD("lbu", DEVICE);
    check("with a guest page fault: mapped, and tried again", faults == 0 && n == 0x88, 1);
    check("it was NestedPageFault", seen(GET_REPLY_BEFORE), 8);
    faults = 0, knob(KNOB_FAIL_FETCH, 5), n = LOAD("lbu", DEVICE);
    check("with another fault: tried again", faults == 0 && n == 0x88, 1), check("it was error 6", seen(GET_REPLY_BEFORE), 0x106);
    knob(KNOB_HTINST_ZERO, 0);
}

void paging(void) {
    say("Page tables and user mode\n");
    tables();
    crossing();
    user();
    page_end();
    fetches();
}
