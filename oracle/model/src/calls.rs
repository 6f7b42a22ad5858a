//! The calls that a host makes between traps, and the load completion.

use crate::*;

impl Vcpu {
    /// All numbers 0 and nothing waiting.
    pub fn zero() -> Vcpu {
        Vcpu {
            x: [0; 32],
            sepc: 0,
            sstatus: 0,
            hstatus: 0,
            vsstatus: 0,
            vstvec: 0,
            vsepc: 0,
            vscause: 0,
            vstval: 0,
            vstimecmp: 0,
            hie: 0,
            hvip: 0,
            hgeie: 0,
            hgatp: 0,
            counts: [0; 9],
            waiting: Waiting::Nothing,
        }
    }

    /// A zero record with a0 the hart id and a1 the device tree.
    pub fn new(hart_id: u64, device_tree: u64) -> Vcpu {
        let mut vcpu = Vcpu::zero();
        vcpu.write(A0, hart_id);
        vcpu.write(A1, device_tree);
        vcpu
    }

    /// Whether an ask waits (a load is no ask).
    pub fn ask_waits(&self) -> bool {
        !matches!(self.waiting, Waiting::Nothing | Waiting::Load { .. })
    }

    pub fn setup(&mut self) -> Reply {
        if self.ask_waits() {
            return Reply::Error(Error::BadState);
        }
        self.sstatus = 0x2100;
        self.hstatus = 0x2_0000_0180;
        self.hie = 0x444;
        self.vstimecmp = u64::MAX;
        self.hvip = 0;
        self.hgeie = 0;
        Reply::Done
    }

    pub fn set_entry(&mut self, entry: u64) -> Reply {
        if self.ask_waits() {
            return Reply::Error(Error::BadState);
        }
        self.sepc = entry;
        Reply::Done
    }

    /// Changes nothing, so a waiting ask is no reason to refuse it.
    pub fn get_gpr(&mut self, index: u64) -> Reply {
        if index > 31 {
            return Reply::Error(Error::InvalidInput);
        }
        Reply::Value(self.read(index as usize))
    }

    pub fn set_gpr(&mut self, index: u64, value: u64) -> Reply {
        if self.ask_waits() {
            return Reply::Error(Error::BadState);
        }
        if index > 31 {
            return Reply::Error(Error::InvalidInput);
        }
        self.write(index as usize, value);
        Reply::Done
    }

    pub fn set_nested_page_table(&mut self, levels: u64, mode: u64, root: u64) -> Reply {
        if self.ask_waits() {
            return Reply::Error(Error::BadState);
        }
        let mode_fits = (levels == 3 && mode == 8) || (levels == 4 && mode == 9);
        if !mode_fits || root & 0x3fff != 0 {
            return Reply::Error(Error::InvalidInput);
        }
        let page = (root >> 12) & ((1 << 44) - 1);
        self.hgatp = (mode << 60) | page;
        Reply::Done
    }

    pub fn set_virtual_interrupt_pending(&mut self, vector: u64, pending: bool) -> Reply {
        if self.ask_waits() {
            return Reply::Error(Error::BadState);
        }
        let bit = match vector {
            v if v == INTERRUPT + 1 => VSSIP,
            v if v == INTERRUPT + 5 => VSTIP,
            v if v == 9 || v == INTERRUPT + 9 => VSEIP,
            _ => return Reply::Error(Error::InvalidInput),
        };
        if pending {
            self.hvip |= bit;
        } else {
            self.hvip &= !bit;
        }
        Reply::Done
    }

    pub fn inject_interrupt(&mut self, vector: u64) -> Reply {
        let pending = true;
        self.set_virtual_interrupt_pending(vector, pending)
    }

    pub fn set_vseip_level(&mut self, asserted: bool) -> Reply {
        self.set_virtual_interrupt_pending(9, asserted)
    }

    pub fn latch_hvip(&mut self, bits: u64) -> Reply {
        if self.ask_waits() {
            return Reply::Error(Error::BadState);
        }
        self.hvip |= bits;
        Reply::Done
    }

    pub fn set_return_value(&mut self, value: u64) -> Reply {
        if self.ask_waits() {
            return Reply::Error(Error::BadState);
        }
        self.write(A0, value);
        Reply::Done
    }

    /// sepc stays: the trap that asked for the IPI has moved it.
    pub fn complete_ipi(&mut self, abi: IpiAbi, completion: IpiCompletion) -> Reply {
        if self.ask_waits() {
            return Reply::Error(Error::BadState);
        }
        self.write(A0, completion.number());
        if abi == IpiAbi::SbiV02 {
            self.write(A1, 0);
        }
        Reply::Done
    }

    pub fn complete_load(&mut self, number: u64) -> Reply {
        let Waiting::Load { rd, width, signed } = self.waiting else {
            return Reply::Error(Error::BadState);
        };
        self.waiting = Waiting::Nothing;
        if rd < 32 {
            self.write(rd as usize, width.extend(signed, number));
        }
        Reply::Done
    }

    /// The bytes to print: the buffer's first n under ask 4 if it has n,
    /// otherwise the empty part.
    pub fn to_print<'a>(&self, buffer: &'a [u8]) -> &'a [u8] {
        match self.waiting {
            Waiting::Print { n } if n <= buffer.len() as u64 => &buffer[..n as usize],
            _ => &buffer[..0],
        }
    }

    /// Makes the call.
    pub fn call(&mut self, call: &Call) -> Reply {
        match *call {
            Call::Setup => self.setup(),
            Call::SetEntry { entry } => self.set_entry(entry),
            Call::GetGpr { index } => self.get_gpr(index),
            Call::SetGpr { index, value } => self.set_gpr(index, value),
            Call::SetNestedPageTable { levels, mode, root } => {
                self.set_nested_page_table(levels, mode, root)
            }
            Call::SetVirtualInterruptPending { vector, pending } => {
                self.set_virtual_interrupt_pending(vector, pending)
            }
            Call::InjectInterrupt { vector } => self.inject_interrupt(vector),
            Call::SetVseipLevel { asserted } => self.set_vseip_level(asserted),
            Call::LatchHvip { bits } => self.latch_hvip(bits),
            Call::SetReturnValue { value } => self.set_return_value(value),
            Call::CompleteIpi { abi, completion } => self.complete_ipi(abi, completion),
            Call::Start(trap) => self.start(&trap),
            Call::Answer(answer) => self.answer(&answer),
            Call::CompleteLoad { number } => self.complete_load(number),
        }
    }

    /// Register `index`; x0 reads 0 whatever its slot holds.
    pub(crate) fn read(&self, index: usize) -> u64 {
        if index == 0 {
            0
        } else {
            self.x[index]
        }
    }

    /// Slot 0 is never written.
    pub(crate) fn write(&mut self, index: usize, value: u64) {
        if index != 0 {
            self.x[index] = value;
        }
    }

    /// Counts event `number`, 1 to 9.
    pub(crate) fn count(&mut self, number: usize) {
        self.counts[number - 1] = self.counts[number - 1].wrapping_add(1);
    }

    pub(crate) fn move_on(&mut self, length: u64) {
        self.sepc = self.sepc.wrapping_add(length);
    }

    pub(crate) fn supervisor(&self) -> bool {
        self.hstatus & SPVP != 0
    }

    /// Waits for the answer to `ask`.
    pub(crate) fn wait(&mut self, waiting: Waiting, ask: Ask) -> Reply {
        self.waiting = waiting;
        Reply::Ask(ask)
    }
}
