//! The published Rust with 01's record put into it and read out of it.

use std::panic::{catch_unwind, AssertUnwindSafe};

use model::{Call, IpiAbi, IpiCompletion, Trap, Vcpu, Waiting, Width, INTERRUPT};
use published::host::Scripted;
use published::regs::{GprIndex, VirtualHsCsrs, VsCsrs};
use published::types::{
    RiscvAccessWidth, RiscvGuestPhysAddr, RiscvIpiAbi, RiscvIpiCompletion, RiscvNestedPagingConfig,
    RiscvVcpuError, RiscvVmExit,
};
use published::vcpu::RiscvVcpu;
use published::{ipi_request, run_guest, RiscvVcpuCreateConfig};
use scripted::{live, with_live, Live, Script};

use crate::outcome::*;

/// What the CSRs outside 01's record hold; no trap may change them.
const OUTSIDE: usize = 0x5151_5151_5151_5151;

pub struct RustSide {
    free: RiscvVcpu<Scripted>,
    bound: RiscvVcpu<Scripted>,
    is_bound: bool,
    /// The hart's own henvcfg when the vCPU was bound.
    host_henvcfg: usize,
    stale: bool,
    waiting: Waiting,
    counts: [u64; 9],
}

impl RustSide {
    pub fn new() -> RustSide {
        let make = || {
            let config = RiscvVcpuCreateConfig { hart_id: 0, dtb_addr: 0 };
            RiscvVcpu::new(0, 0, config).expect("a vCPU can be made")
        };
        let mut bound: RiscvVcpu<Scripted> = make();
        with_live(|live| live.henvcfg = 0);
        bound.bind().expect("a vCPU can be bound");
        RustSide {
            free: make(),
            bound,
            is_bound: false,
            host_henvcfg: 0,
            stale: false,
            waiting: Waiting::Nothing,
            counts: [0; 9],
        }
    }

    /// The record of a new vCPU.
    pub fn fresh(hart_id: u64, device_tree: u64) -> Vcpu {
        let config = RiscvVcpuCreateConfig {
            hart_id: hart_id as usize,
            dtb_addr: device_tree as usize,
        };
        let mut side = RustSide::new();
        side.free = RiscvVcpu::new(1, 2, config).expect("a vCPU can be made");
        side.load_live();
        side.record()
    }

    /// Whether the published text was built with overflow checks.
    pub fn checks_overflow() -> bool {
        let mut vcpu = RustSide::new().free;
        vcpu.regs().guest_regs.sepc = usize::MAX;
        catch_unwind(AssertUnwindSafe(|| vcpu.advance_pc(4))).is_err()
    }

    fn vcpu(&mut self) -> &mut RiscvVcpu<Scripted> {
        if self.is_bound {
            &mut self.bound
        } else {
            &mut self.free
        }
    }

    /// Puts the record in; the live VS CSRs agree with it, and the saved
    /// vstimecmp too unless it is stale.
    pub fn load(&mut self, record: &Vcpu, bound: bool, stale: Option<u64>) {
        self.is_bound = bound;
        self.stale = stale.is_some();
        self.waiting = record.waiting;
        self.counts = record.counts;
        let regs = self.vcpu().regs();
        regs.guest_regs.gprs.0 = record.x.map(|number| number as usize);
        regs.guest_regs.sepc = record.sepc as usize;
        regs.guest_regs.sstatus = record.sstatus as usize;
        regs.guest_regs.hstatus = record.hstatus as usize;
        regs.vs_csrs.htimedelta = OUTSIDE;
        regs.vs_csrs.vsatp = OUTSIDE;
        regs.vs_csrs.vsie = OUTSIDE;
        regs.vs_csrs.vsscratch = OUTSIDE;
        regs.vs_csrs.vsstatus = record.vsstatus as usize;
        regs.vs_csrs.vstvec = record.vstvec as usize;
        regs.vs_csrs.vsepc = record.vsepc as usize;
        regs.vs_csrs.vscause = record.vscause as usize;
        regs.vs_csrs.vstval = record.vstval as usize;
        regs.vs_csrs.vstimecmp = stale.unwrap_or(record.vstimecmp) as usize;
        regs.virtual_hs_csrs.hie = record.hie as usize;
        regs.virtual_hs_csrs.hvip = record.hvip as usize;
        regs.virtual_hs_csrs.hgeie = record.hgeie as usize;
        regs.virtual_hs_csrs.hgatp = record.hgatp as usize;
        self.load_live();
        with_live(|live| live.vstimecmp = record.vstimecmp as usize);
    }

    /// Makes the live CSRs agree with the saved ones.
    fn load_live(&mut self) {
        let is_bound = self.is_bound;
        let regs = self.vcpu().regs();
        with_live(|live| {
            live.sstatus = host_sstatus(is_bound);
            live.htimedelta = regs.vs_csrs.htimedelta;
            live.vsatp = regs.vs_csrs.vsatp;
            live.vsie = regs.vs_csrs.vsie;
            live.vsscratch = regs.vs_csrs.vsscratch;
            live.vsstatus = regs.vs_csrs.vsstatus;
            live.vstvec = regs.vs_csrs.vstvec;
            live.vsepc = regs.vs_csrs.vsepc;
            live.vscause = regs.vs_csrs.vscause;
            live.vstval = regs.vs_csrs.vstval;
            live.vstimecmp = regs.vs_csrs.vstimecmp;
            live.henvcfg = OUTSIDE;
            // An unbound vCPU has no business with these.
            let own = |number| if is_bound { number } else { OUTSIDE };
            live.hie = own(regs.virtual_hs_csrs.hie);
            live.hvip = own(regs.virtual_hs_csrs.hvip);
            live.hgeie = own(regs.virtual_hs_csrs.hgeie);
            live.hgatp = own(regs.virtual_hs_csrs.hgatp);
        });
    }

    /// Reads the record out; the live vstimecmp is the guest's.
    pub fn record(&mut self) -> Vcpu {
        let (waiting, counts) = (self.waiting, self.counts);
        let regs = self.vcpu().regs();
        Vcpu {
            x: regs.guest_regs.gprs.0.map(|number| number as u64),
            sepc: regs.guest_regs.sepc as u64,
            sstatus: regs.guest_regs.sstatus as u64,
            hstatus: regs.guest_regs.hstatus as u64,
            vsstatus: regs.vs_csrs.vsstatus as u64,
            vstvec: regs.vs_csrs.vstvec as u64,
            vsepc: regs.vs_csrs.vsepc as u64,
            vscause: regs.vs_csrs.vscause as u64,
            vstval: regs.vs_csrs.vstval as u64,
            vstimecmp: live().vstimecmp as u64,
            hie: regs.virtual_hs_csrs.hie as u64,
            hvip: regs.virtual_hs_csrs.hvip as u64,
            hgeie: regs.virtual_hs_csrs.hgeie as u64,
            hgatp: regs.virtual_hs_csrs.hgatp as u64,
            counts,
            waiting,
        }
    }

    fn strays(&mut self) -> Vec<&'static str> {
        let is_bound = self.is_bound;
        let stale = self.stale;
        let regs = self.vcpu().regs();
        let (vs, hs, live) = (&regs.vs_csrs, &regs.virtual_hs_csrs, live());
        let own = |number| if is_bound { number } else { OUTSIDE };
        let mut strays = Vec::new();
        for (name, is, due) in [
            ("htimedelta", vs.htimedelta, OUTSIDE),
            ("vsatp", vs.vsatp, OUTSIDE),
            ("vsie", vs.vsie, OUTSIDE),
            ("vsscratch", vs.vsscratch, OUTSIDE),
            ("live sstatus", live.sstatus, host_sstatus(is_bound)),
            ("live henvcfg", live.henvcfg, OUTSIDE),
            ("live htimedelta", live.htimedelta, OUTSIDE),
            ("live vsatp", live.vsatp, OUTSIDE),
            ("live vsie", live.vsie, OUTSIDE),
            ("live vsscratch", live.vsscratch, OUTSIDE),
            ("live vsstatus", live.vsstatus, vs.vsstatus),
            ("live vstvec", live.vstvec, vs.vstvec),
            ("live vsepc", live.vsepc, vs.vsepc),
            ("live vscause", live.vscause, vs.vscause),
            ("live vstval", live.vstval, vs.vstval),
            ("live hie", live.hie, own(hs.hie)),
            ("live hvip", live.hvip, own(hs.hvip)),
            ("live hgeie", live.hgeie, own(hs.hgeie)),
            ("live hgatp", live.hgatp, own(hs.hgatp)),
        ] {
            if is != due {
                strays.push(name);
            }
        }
        if !stale && live.vstimecmp != vs.vstimecmp {
            strays.push("live vstimecmp");
        }
        strays
    }

    /// Takes a bound vCPU off the hart and puts it back, after another guest
    /// had the hart. 01 leaves `bind` and `unbind` out, so they must keep the
    /// record, and leave nothing of it on the hart. The names of what is not so.
    pub fn rebind(&mut self) -> Vec<&'static str> {
        const STCE: usize = 1 << 63;
        if !self.is_bound {
            return Vec::new();
        }
        let another = !OUTSIDE & !STCE;
        let before = self.record();
        // What counts is on the hart: a guest that ran has changed it there.
        let regs = self.bound.regs();
        regs.vs_csrs = every_vs_csr(another);
        regs.virtual_hs_csrs =
            VirtualHsCsrs { hie: another, hvip: another, hgeie: another, hgatp: another };
        scripted::begin(&Script::ZERO, self.counts);
        let was_unbound = self.bound.unbind().is_ok();
        let off = live();
        let mut saved = self.record();
        let vs = &self.bound.regs().vs_csrs;
        saved.vstimecmp = vs.vstimecmp as u64;
        let others = [vs.htimedelta, vs.vsatp, vs.vsie, vs.vsscratch];
        let again = self.bound.unbind();
        with_live(|live| {
            *live = Live { sstatus: live.sstatus, henvcfg: another, ..every_csr(another) }
        });
        let was_bound = self.bound.bind().is_ok();
        let stce = live().henvcfg == another | STCE;
        let bound_again = self.bound.bind();
        let noted = scripted::end();
        let refused = Err(RiscvVcpuError::BadState);
        with_live(|live| live.henvcfg = OUTSIDE);
        let mut wrong = self.strays();
        for (is_wrong, name) in [
            (!was_unbound || again != refused, "what unbind answers"),
            (!was_bound || bound_again != refused, "what bind answers"),
            (!noted.requests.is_empty() || noted.counts != self.counts, "requests and events"),
            (saved != before || others != [OUTSIDE; 4], "the saved record"),
            (off.henvcfg != self.host_henvcfg, "henvcfg of the host"),
            ([off.hie, off.hvip, off.hgeie, off.hgatp] != [0; 4], "the hart's CSRs"),
            (off.vstimecmp != usize::MAX, "the hart's vstimecmp"),
            (!stce, "henvcfg.STCE"),
            (self.record() != before, "the record"),
        ] {
            if is_wrong {
                wrong.push(name);
            }
        }
        self.host_henvcfg = another;
        wrong
    }

    /// Runs one trap through the public `run`.
    pub fn run_trap(&mut self, trap: &Trap, script: &Script) -> Outcome {
        scripted::begin(script, self.counts);
        run_guest::post([trap.scause, trap.stval, trap.htval, trap.htinst].map(|n| n as usize));
        let vcpu = self.vcpu();
        let result = catch_unwind(AssertUnwindSafe(|| vcpu.run()));
        let noted = scripted::end();
        self.counts = noted.counts;
        let mut wide = true;
        let ending = match result {
            Err(_) => Ending::new(PANIC, &[]),
            Ok(Err(error)) => Ending::error(error_number(error)),
            Ok(Ok(exit)) => {
                if let RiscvVmExit::MmioRead { width, reg, reg_width, signed_ext, .. } = exit {
                    wide = reg_width == RiscvAccessWidth::Qword;
                    self.waiting = Waiting::Load {
                        rd: reg as u64,
                        width: model_width(width),
                        signed: signed_ext,
                    };
                }
                ending_of(&exit)
            }
        };
        let mut strays = self.strays();
        if !wide {
            strays.push("the load's register width");
        }
        Outcome {
            ending,
            requests: noted.requests,
            record: self.record(),
            accesses: noted.accesses,
            undecoded: noted.undecoded,
            strays,
        }
    }

    /// Makes a call between traps; none where the Rust has no such call.
    pub fn call(&mut self, call: &Call) -> Option<Outcome> {
        if let Call::SetVirtualInterruptPending { vector, pending } = *call {
            return self.set_pending(vector, pending);
        }
        scripted::begin(&Script::ZERO, self.counts);
        let ending = self.ending_of_call(call)?;
        let strays = match call {
            // These change the saved CSRs alone; a bind brings them to the hart.
            Call::Setup | Call::SetNestedPageTable { .. } | Call::LatchHvip { .. } => Vec::new(),
            _ => self.strays(),
        };
        let noted = scripted::end();
        self.counts = noted.counts;
        self.load_live();
        Some(Outcome {
            requests: noted.requests,
            accesses: noted.accesses,
            undecoded: noted.undecoded,
            strays,
            ..Outcome::new(ending, self.record())
        })
    }

    /// The Rust's own function for it is private. `inject_interrupt` reaches it
    /// to set a bit, and with a vector that is not allowed, which is refused
    /// whatever the level; `set_vseip_level`, legacy 3 and the timer clear.
    fn set_pending(&mut self, vector: u64, pending: bool) -> Option<Outcome> {
        const SOFT: u64 = INTERRUPT + 1;
        const TIMER: u64 = INTERRUPT + 5;
        const EXTERNAL: u64 = INTERRUPT + 9;
        let eid = match (vector, pending) {
            (SOFT, false) => 3,
            (TIMER, false) => 0,
            (9 | EXTERNAL, false) => return self.call(&Call::SetVseipLevel { asserted: false }),
            _ => return self.call(&Call::InjectInterrupt { vector }),
        };
        let (before, bound) = (self.record(), self.is_bound);
        let mut given = Vcpu { sepc: 0, ..before.clone() };
        given.x[17] = eid;
        self.load(&given, bound, None);
        let trap = Trap { scause: 10, stval: 0, htval: 0, htinst: 0, room: 0 };
        let mut outcome = self.run_trap(&trap, &Script::ZERO);
        // All else that the ecall did is taken back.
        outcome.record = Vcpu { hvip: outcome.record.hvip, ..before };
        self.load(&outcome.record, bound, None);
        if outcome.ending == Ending::NOTHING {
            outcome.ending = Ending::new(DONE, &[]);
        }
        Some(outcome)
    }

    fn ending_of_call(&mut self, call: &Call) -> Option<Ending> {
        let done = Ending::new(DONE, &[]);
        let of = |result: Result<(), RiscvVcpuError>| match result {
            Ok(()) => done,
            Err(error) => Ending::error(error_number(error)),
        };
        let vcpu = self.vcpu();
        Some(match *call {
            Call::Setup => of(vcpu.setup(())),
            Call::SetEntry { entry } => of(vcpu.set_entry(RiscvGuestPhysAddr::from(entry as usize))),
            Call::GetGpr { index } => {
                let index = GprIndex::from_raw(u32::try_from(index).ok()?)?;
                Ending::new(VALUE, &[vcpu.get_gpr(index) as u64])
            }
            Call::SetGpr { index, value } => {
                vcpu.set_gpr(index as usize, value as usize);
                done
            }
            Call::SetNestedPageTable { levels, mode, root } => {
                let (levels, mode, root) = (levels as usize, mode as usize, root as usize);
                of(vcpu.set_nested_page_table(RiscvNestedPagingConfig::new(root, levels, 0, mode)))
            }
            Call::InjectInterrupt { vector } => of(vcpu.inject_interrupt(vector as usize)),
            Call::SetVseipLevel { asserted } => {
                vcpu.set_vseip_level(asserted);
                done
            }
            Call::LatchHvip { bits } => {
                with_live(|live| live.hvip = bits as usize);
                vcpu.latch_hvip_from_hw();
                done
            }
            Call::SetReturnValue { value } => {
                vcpu.set_return_value(value as usize);
                done
            }
            Call::CompleteIpi { abi, completion } => {
                let abi = match abi {
                    IpiAbi::Legacy => RiscvIpiAbi::Legacy,
                    IpiAbi::SbiV02 => RiscvIpiAbi::SbiV02,
                };
                let completion = match completion {
                    IpiCompletion::Success => RiscvIpiCompletion::Success,
                    IpiCompletion::InvalidParameter => RiscvIpiCompletion::InvalidParameter,
                    IpiCompletion::Failed => RiscvIpiCompletion::Failed,
                };
                vcpu.complete_ipi(ipi_request(abi), completion);
                done
            }
            // The Rust's host extends a load itself and writes the register.
            Call::CompleteLoad { number } => {
                let Waiting::Load { rd, width, signed } = self.waiting else {
                    return None;
                };
                self.waiting = Waiting::Nothing;
                let bits = 64 - 8 * width.bytes();
                let value = if signed {
                    ((number << bits) as i64 >> bits) as u64
                } else {
                    number << bits >> bits
                };
                self.vcpu().set_gpr(rd as usize, value as usize);
                done
            }
            Call::SetVirtualInterruptPending { .. } | Call::Start(_) | Call::Answer(_) => {
                return None;
            }
        })
    }
}

/// Saved VS CSRs that all hold one number.
fn every_vs_csr(number: usize) -> VsCsrs {
    VsCsrs {
        htimedelta: number,
        vsatp: number,
        vscause: number,
        vsepc: number,
        vsie: number,
        vsscratch: number,
        vsstatus: number,
        vstimecmp: number,
        vstval: number,
        vstvec: number,
    }
}

/// Live CSRs that all hold one number.
fn every_csr(number: usize) -> Live {
    Live {
        scause: number,
        stval: number,
        htval: number,
        htinst: number,
        sstatus: number,
        henvcfg: number,
        hgatp: number,
        hgeie: number,
        hie: number,
        htimedelta: number,
        hvip: number,
        vsatp: number,
        vscause: number,
        vsepc: number,
        vsie: number,
        vsscratch: number,
        vsstatus: number,
        vstimecmp: number,
        vstval: number,
        vstvec: number,
    }
}

/// The hart's own sstatus, with its interrupts on or off.
fn host_sstatus(on: bool) -> usize {
    OUTSIDE & !2 | (on as usize) << 1
}

fn model_width(width: RiscvAccessWidth) -> Width {
    match width {
        RiscvAccessWidth::Byte => Width::One,
        RiscvAccessWidth::Word => Width::Two,
        RiscvAccessWidth::Dword => Width::Four,
        RiscvAccessWidth::Qword => Width::Eight,
    }
}

fn error_number(error: RiscvVcpuError) -> u64 {
    match error {
        RiscvVcpuError::InvalidInput => 1,
        RiscvVcpuError::BadState => 2,
        RiscvVcpuError::Unsupported => 3,
        RiscvVcpuError::InvalidTrap => 4,
        RiscvVcpuError::DecodeFailed => 5,
        RiscvVcpuError::GuestMemoryFault => 6,
    }
}

fn ending_of(exit: &RiscvVmExit) -> Ending {
    match *exit {
        RiscvVmExit::Nothing => Ending::NOTHING,
        RiscvVmExit::ExternalInterrupt { vector } => Ending::new(1, &[vector]),
        RiscvVmExit::SendIpi(request) => Ending::new(
            2,
            &[
                request.hart_mask() as u64,
                request.hart_mask_base() as u64,
                (request.abi() == RiscvIpiAbi::SbiV02) as u64,
            ],
        ),
        RiscvVmExit::CpuUp { target_cpu, entry_point, arg } => {
            Ending::new(3, &[target_cpu, entry_point.as_usize() as u64, arg])
        }
        RiscvVmExit::CpuDown { state } => Ending::new(4, &[state]),
        RiscvVmExit::Halt => Ending::new(5, &[]),
        RiscvVmExit::Hypercall { nr, args: [a, b, c, d, e, f] } => {
            Ending::new(6, &[nr, a, b, c, d, e, f])
        }
        RiscvVmExit::SystemDown => Ending::new(7, &[]),
        RiscvVmExit::NestedPageFault { addr, access_flags } => Ending::new(
            NESTED_PAGE_FAULT,
            &[addr.as_usize() as u64, access_flags.bits() as u64],
        ),
        RiscvVmExit::MmioRead { addr, width, .. } => {
            Ending::new(MMIO_READ, &[addr.as_usize() as u64, width.size() as u64])
        }
        RiscvVmExit::MmioWrite { addr, width, data } => {
            Ending::new(MMIO_WRITE, &[addr.as_usize() as u64, width.size() as u64, data])
        }
    }
}
