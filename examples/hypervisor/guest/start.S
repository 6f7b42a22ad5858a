/* The guest's start, its trap handler, and a way into its user mode and back. */
    .section .text.start, "ax"
    .globl  _start
_start: /* a0: hart, a1: device tree */
    la      sp, stack_top
    la      t0, trap
    csrw    stvec, t0
    la      t0, trap_stack_top
    csrw    sscratch, t0
    call    main
1:  j       1b

    .globl  trap
    .balign 4
trap:
    csrrw   sp, sscratch, sp
    addi    sp, sp, -256
    .irp r, 1,5,6,7,10,11,12,13,14,15,16,17,28,29,30,31
    sd      x\r, 8*\r(sp)
    .endr
    csrr    a0, scause
    csrr    a1, sepc
    call    handler
    csrw    sepc, a0
    .irp r, 1,5,6,7,10,11,12,13,14,15,16,17,28,29,30,31
    ld      x\r, 8*\r(sp)
    .endr
    addi    sp, sp, 256
    csrrw   sp, sscratch, sp
    sret

/* u64 run_user(u64 pc, u64 a1): the handler comes back to user_done, in S mode, with the user's a0. */
    .globl  run_user, user_done, user_load, user_store, user_amo, user_csr
run_user:
    addi    sp, sp, -112
    .irp r, 0,1,2,3,4,5,6,7,8,9,10,11
    sd      s\r, 8*\r(sp)
    .endr
    sd      ra, 96(sp)
    la      t0, user_sp
    sd      sp, 0(t0)
    csrw    sepc, a0
    li      t0, 0x100
    csrc    sstatus, t0
    sret
    .balign 4
user_done:
    la      t0, user_sp
    ld      sp, 0(t0)
    .irp r, 0,1,2,3,4,5,6,7,8,9,10,11
    ld      s\r, 8*\r(sp)
    .endr
    ld      ra, 96(sp)
    addi    sp, sp, 112
    ret
    .balign 4
user_load:
    .option push
    .option norvc
    lw      a0, 0(a1)
    .option pop
    ecall
    .balign 4
user_store:
    sw      a0, 0(a1)
    ecall
    .balign 4
user_amo:
    amoadd.w a0, zero, (a1)
    ecall
    .balign 4
user_csr:
    csrr    a0, 0x14d /* stimecmp */
    ecall

    .section .bss
    .balign 16
    .space  8192
stack_top:
    .space  4096
trap_stack_top:
user_sp:
    .space  8
