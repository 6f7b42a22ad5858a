/* The host's start, the way into a guest and back, and what C can't say. */
    .option arch, +h
    .equ    HOST_SP, 464 /* of struct guest, behind the 58 words of its record */

    .section .text.start, "ax"
    .globl  _start
_start: /* a0: the hart */
    la      sp, stack_top
    la      t0, bss_start
    la      t1, bss_end
1:  sd      zero, 0(t0)
    addi    t0, t0, 8
    bltu    t0, t1, 1b
    la      t0, lost
    csrw    stvec, t0
    call    main
1:  wfi
    j       1b

    .text
/* void enter(struct guest *g): runs the guest until it traps. sscratch holds g meanwhile; a0 is loaded last and saved first. */
    .globl  enter
enter:
    addi    sp, sp, -112
    .irp r, 0,1,2,3,4,5,6,7,8,9,10,11
    sd      s\r, 8*\r(sp)
    .endr
    sd      ra, 96(sp)
    sd      sp, HOST_SP(a0)
    csrw    sscratch, a0
    la      t0, trapped
    csrw    stvec, t0
    .irp r, 1,2,3,4,5,6,7,8,9,11,12,13,14,15,16,17,18,19,20,21,22,23,24,25,26,27,28,29,30,31
    ld      x\r, 8*\r(a0)
    .endr
    ld      a0, 8*10(a0)
    sret
    .balign 4
trapped:
    csrrw   a0, sscratch, a0
    .irp r, 1,2,3,4,5,6,7,8,9,11,12,13,14,15,16,17,18,19,20,21,22,23,24,25,26,27,28,29,30,31
    sd      x\r, 8*\r(a0)
    .endr
    csrr    t0, sscratch
    sd      t0, 8*10(a0)
    ld      sp, HOST_SP(a0)
    la      t0, lost
    csrw    stvec, t0
    .irp r, 0,1,2,3,4,5,6,7,8,9,10,11
    ld      s\r, 8*\r(sp)
    .endr
    ld      ra, 96(sp)
    addi    sp, sp, 112
    ret

/* u64 peek(u64 va, u64 execute, u64 *to): two bytes of the guest's code (execute) or one of its data, through both of its page tables,
 * as whom hstatus.SPVP says. 0, or the fault's scause plus 1; stval and htval are then the fault's. */
    .globl  peek
peek:
    la      t0, 2f
    csrrw   t0, stvec, t0
    beqz    a1, 1f
    hlvx.hu a0, (a0)
    j       3f
1:  hlv.bu  a0, (a0)
3:  csrw    stvec, t0
    sd      a0, 0(a2)
    li      a0, 0
    ret
    .balign 4
2:  csrw    stvec, t0
    csrr    a0, scause
    addi    a0, a0, 1
    ret

/* void save_fp(u64 *f), void load_fp(const u64 *f): f0 to f31 and fcsr. sstatus.FS must not be 0. */
    .option push
    .option arch, +d
    .globl  save_fp, load_fp
save_fp:
    .irp r, 0,1,2,3,4,5,6,7,8,9,10,11,12,13,14,15,16,17,18,19,20,21,22,23,24,25,26,27,28,29,30,31
    fsd     f\r, 8*\r(a0)
    .endr
    csrr    t0, fcsr
    sd      t0, 8*32(a0)
    ret
load_fp:
    .irp r, 0,1,2,3,4,5,6,7,8,9,10,11,12,13,14,15,16,17,18,19,20,21,22,23,24,25,26,27,28,29,30,31
    fld     f\r, 8*\r(a0)
    .endr
    ld      t0, 8*32(a0)
    csrw    fcsr, t0
    ret
    .option pop

/* A trap of the host itself. */
    .balign 4
lost:
    csrr    a0, scause
    csrr    a1, sepc
    csrr    a2, stval
    la      sp, stack_top
    call    died

    .section .bss
    .balign 16
    .space  16384
stack_top:
