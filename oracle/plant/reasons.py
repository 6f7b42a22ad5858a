"""Why a fault that the run does not notice can't be seen. A row is a file, a function, faults in it, and the reason."""

NO_SSTC = "compiled without `sstc` only"
PMU = "the PMU backend is left out of 01"
NO_CALL = "`Default` is no call of 01"
CLEAR = "clears bits of a value that starts as 0"
ZEROS = "exchanges 0 and RET_SUCCESS, which is 0"
FLAG = "the direction flag, which nothing reads"

ROWS = [
    ("vcpu.rs", "initial_guest_sstatus", "call 1", "clears a bit that is clear"),
    ("vcpu.rs", "initial_guest_hstatus", "call 8, call 9", "clears a bit that is clear"),
    ("vcpu.rs", "supervisor_timer_trap_owner", "number 9", "an argument that the answer does not depend on"),
    ("vcpu.rs", "supervisor_timer_trap_owner", "path 8", "a branch that is never taken"),
    ("vcpu.rs", "default, number 2", "test 9, number 10", NO_CALL),
    ("vcpu.rs", "bind", "call 24, path 23", "the stand-in's henvcfg takes every bit, so that `bind` never gives up"),
    ("vcpu.rs", "bind", "drop 10, call 28", PMU),
    ("vcpu.rs", "unbind", "drop 12", PMU),
    ("vcpu.rs", "new", "number 11", "`bind` writes the field before anything reads it"),
    ("vcpu.rs", "set_gpr", "number 26", "index 32 is no GprIndex, and ends as silently"),
    ("vcpu.rs", "decode_mmio_fault", "path 75, path 76, path 77", "left out of 01; `cargo test -p diff` shows what it does"),
    ("vcpu.rs", "program_guest_timer, number 2", "path 79", NO_SSTC),
    ("vcpu.rs", "handle_virtual_instruction, number 2", "drop 93, field 234, call 130, path 195", NO_SSTC),
    (
        "vcpu.rs",
        "inject_guest_exception",
        "drop 36, field 168",
        "the saved vstvec is the live one already, and vsepc is written next",
    ),
    ("vcpu.rs", "vmexit_handler", "number 53, number 54, number 55", "reads a register into a name that nothing reads"),
    ("vcpu.rs", "vmexit_handler", "swap 28, swap 32, swap 37, swap 42", ZEROS),
    ("vcpu.rs", "vmexit_handler", "number 69, number 76", "the buffer's first bytes are written over before anyone reads them"),
    ("vcpu.rs", "vmexit_handler", "call 111", "decides on a log line alone"),
    ("vcpu.rs", "vmexit_handler", "equal 10, path 183", FLAG),
    ("vcpu.rs", "read_gpr_raw", "number 110", "a 5-bit field is always an index"),
    ("vcpu.rs", "decode_instr_at", "number 120", "bit 0 is set there"),
    ("vcpu.rs", "handle_guest_page_fault", "path 242", "a 5-bit field is always an index"),
    ("sbi_ipi.rs", "decode_legacy_request", "number 1", "the bytes are written over, or not read"),
    ("registers.rs", "outside functions", "number 3, number 4", "VMID is used by nothing"),
    ("consts.rs", "outside functions", "shift 1, shift 14", "a shift by 0"),
    ("consts.rs", "outside functions", "number 70", "MAX_IRQ_COUNT, which nothing uses"),
    ("types.rs", "outside functions", "shift 1", "a shift by 0"),
    (
        "types.rs",
        "outside functions",
        "number 15, shift 4, number 16, number 17, shift 5, number 18, number 19, shift 6, number 20",
        "flags that 01 leaves out and the handler does not use",
    ),
    ("published/src/guest_mem.rs", "fetch_guest_instruction", "number 1, number 2, number 3", "numbers for a log line"),
    ("published/src/guest_mem.rs", "copy_from_guest", "field 3", "the number taken for the count is random and far above it"),
    ("published/src/lib.rs", "ipi_request", "number 2, number 3", "a completion reads the calling convention alone"),
    ("published/src/regs.rs", "outside functions", "number 3, number 4", "A2 and A3 stand in a log line alone"),
    ("published/src/regs.rs", "a_regs", "number 11", "a longer slice, whose end nothing reads"),
    ("published/src/run_guest.rs", "outside functions", "number 2", "each run posts its trap first"),
    ("published/src/run_guest.rs", "_run_guest", "number 7", "a number for a message that is never given"),
    ("published/src/trap.rs", "outside functions", "number 3, number 7", "only the codes 0, 1 and 12 are used as numbers"),
    ("published/src/trap.rs", "from_number", "path 1", "both end in error 3"),
    (
        "stand-ins/bitflags/src/lib.rs",
        "contains",
        "bits 1, equal 1",
        "used by `decode_mmio_fault` alone, for a flag that nothing reads",
    ),
    ("stand-ins/riscv/src/register.rs", "outside functions", "number 6, shift 3, number 7", CLEAR),
    ("stand-ins/riscv/src/register.rs", "set_spp", "swap 4", "true for every value, and Supervisor is the only one used"),
    ("stand-ins/riscv/src/register.rs", "set_fs", "number 12, number 14, number 15", "values that the published text does not use"),
    ("stand-ins/riscv/src/register.rs", "set_fs", "number 16, shift 5", CLEAR),
    ("stand-ins/riscv/src/register.rs", "set", "not 3", CLEAR),
    (
        "stand-ins/riscv_decode/src/lib.rs",
        "instruction_length",
        "bits 3, number 7, equal 3, number 8, number 9, bits 4, number 10, equal 4, number 11, number 12, number 13",
        "lengths above 4 end in error 5, whatever they are",
    ),
    ("stand-ins/riscv_decode/src/lib.rs", "decode", "swap 5", "exchanges 3 and 3"),
    (
        "stand-ins/riscv_decode/src/lib.rs",
        "decode",
        "swap 13, number 39, number 40, number 41, number 42, number 43, number 44, number 45, number 46, number 47, number 48, swap 14, number 49, number 50, number 51, number 52, number 53",
        "which words decode that are no load or store is not at hand: both outcomes are explained, by two switches",
    ),
    ("stand-ins/riscv_h/src/register.rs", "set_vtvm", "number 21", CLEAR),
    ("stand-ins/riscv_h/src/register.rs", "set_vtw", "number 22", CLEAR),
    ("stand-ins/riscv_h/src/register.rs", "set_vtsr", "number 23", CLEAR),
    ("stand-ins/riscv_h/src/register.rs", "set_vsxl", "number 24", "a value that the published text does not use"),
    ("stand-ins/riscv_h/src/register.rs", "set_vsxl", "number 26, shift 7, number 27", CLEAR),
    ("stand-ins/riscv_h/src/register.rs", "set", "number 29, shift 9", CLEAR),
    (
        "stand-ins/sbi_spec/src/binary.rs",
        "not_supported",
        "number 3, number 4",
        "used by the IPI provider alone, which no trap calls",
    ),
    ("stand-ins/sbi_spec/src/binary.rs", "is_err", "equal 2, number 8", "decides on a log line alone"),
    ("stand-ins/sbi_spec/src/lib.rs", "outside functions", "number 16", "an ecall to the PMU is forwarded as any other"),
    (
        "stand-ins/scripted/src/console.rs",
        "pattern",
        "number 1, shift 1, number 2",
        "the bytes are any, and the same for both sides",
    ),
    ("stand-ins/scripted/src/console.rs", "digest", "number 3, number 4", "the digest is any, and the same for both sides"),
    ("stand-ins/scripted/src/hart.rs", "live", "call 1", "borrows more than it needs"),
    (
        "stand-ins/scripted/src/host.rs",
        "outside functions",
        "number 1, number 2, number 3, number 4, number 5, number 6, number 7, number 8, number 9, number 10, number 11, number 12, number 16, number 18, none 1",
        "what holds before a script is given, and in calls between traps, which ask nothing",
    ),
    ("registers.rs", "outside functions", "number 6", "the modes that are let through, 8 and 9, have 4 bits"),
]


def reason_for(name, fault):
    which = f"{fault.kind} {fault.ordinal}"
    for file, function, faults, reason in ROWS:
        if (file, function) == (name, fault.function) and which in faults.split(", "):
            return reason
    return None
