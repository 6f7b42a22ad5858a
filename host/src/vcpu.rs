//! The record and every call on it.

use crate::library::{self, Out, Record, RECORD, VALUE};
use crate::reply::{answer_words, done, posted, refusal, step};
use crate::types::*;
use core::mem::MaybeUninit;

/// A guest's hart while it is not running: its registers, the CSRs that the handler keeps for it, nine event counts, and what
/// a trap waits for.
///
/// It is 58 words of 64 bits in this order, so that assembly can save and load a guest by offset
/// ([`core::mem::offset_of!`]). Any content is allowed: every call gives an answer on every pattern of words.
///
/// ```
/// use curbizzolu::Vcpu;
/// let vcpu = Vcpu::new(3, 0x8200_0000);
/// assert_eq!((vcpu.x[10], vcpu.x[11], vcpu.sepc), (3, 0x8200_0000, 0));
/// assert_eq!(core::mem::offset_of!(Vcpu, sepc), 32 * 8);
/// ```
#[repr(C)]
#[derive(Clone, Debug, Eq, PartialEq)]
pub struct Vcpu {
    /// x0 to x31. A call leaves slot 0 as it was, and x0 reads 0 whatever it holds.
    pub x: [u64; 32],
    /// Where the guest goes on.
    pub sepc: u64,
    /// sstatus for the guest.
    pub sstatus: u64,
    /// hstatus for the guest.
    pub hstatus: u64,
    /// The guest's own sstatus.
    pub vsstatus: u64,
    /// The guest's own stvec.
    pub vstvec: u64,
    /// The guest's own sepc.
    pub vsepc: u64,
    /// The guest's own scause.
    pub vscause: u64,
    /// The guest's own stval.
    pub vstval: u64,
    /// The guest's timer.
    pub vstimecmp: u64,
    /// hie for the guest.
    pub hie: u64,
    /// The guest's pending interrupts. A guest's set_timer call, legacy 0 or TIME fid 0, clears bit 6, the timer's.
    pub hvip: u64,
    /// hgeie for the guest.
    pub hgeie: u64,
    /// The guest-stage page table.
    pub hgatp: u64,
    /// Events 1 to 9, each modulo 2^64: timers set, illegal instructions, then seven kinds of remote fence.
    pub counts: [u64; 9],
    /// The kind of what waits, and three numbers. No call needs a host to look at it.
    waiting: [u64; 4],
}

const _: () = assert!(core::mem::size_of::<Vcpu>() == RECORD * 8 && core::mem::size_of::<Trap>() == 5 * 8);

impl Vcpu {
    /// A record of zeros but for what a guest finds at its start: a0 is its hart, a1 where its device tree lies.
    ///
    /// ```
    /// # use curbizzolu::{GuestPhysAddr, Vcpu};
    /// let mut vcpu = Vcpu::new(0, 0x8200_0000);
    /// vcpu.setup()?;
    /// vcpu.set_entry(GuestPhysAddr(0x8000_0000))?;
    /// # Ok::<(), curbizzolu::Refusal>(())
    /// ```
    pub fn new(hart_id: u64, dtb_addr: u64) -> Vcpu {
        let mut vcpu = Vcpu::from_words([0; RECORD]);
        // SAFETY: as for every call below, the pointers are to live words of ours that do not overlap, and the library asks
        // nothing more: its functions are proved to answer on every pattern of words and to touch nothing else.
        unsafe { library::vcpu_new(vcpu.words(), hart_id, dtb_addr) };
        vcpu
    }

    /// The record that these words stand for, as [`to_words`](Vcpu::to_words) gave them: for a guest that is stored or moved.
    /// Any words are allowed.
    ///
    /// ```
    /// # use curbizzolu::Vcpu;
    /// let vcpu = Vcpu::new(1, 2);
    /// assert_eq!(Vcpu::from_words(vcpu.to_words()), vcpu);
    /// ```
    pub const fn from_words(words: [u64; 58]) -> Vcpu {
        // SAFETY: both are 58 words of 64 bits, and every pattern is allowed in both.
        unsafe { core::mem::transmute(words) }
    }

    /// The record as words.
    ///
    /// ```
    /// # use curbizzolu::Vcpu;
    /// assert_eq!(Vcpu::new(7, 0).to_words()[10], 7);
    /// ```
    pub const fn to_words(&self) -> [u64; 58] {
        // SAFETY: as above.
        unsafe { *(self as *const Vcpu as *const Record) }
    }

    #[inline]
    fn words(&mut self) -> *mut Record {
        self as *mut Vcpu as *mut Record
    }

    /// The state that a guest starts with: sstatus, hstatus, hie, the timer, no interrupt pending. The rest stays.
    ///
    /// ```
    /// # use curbizzolu::Vcpu;
    /// let mut vcpu = Vcpu::new(0, 0);
    /// vcpu.setup()?;
    /// assert_eq!((vcpu.hie, vcpu.vstimecmp), (0x444, u64::MAX));
    /// # Ok::<(), curbizzolu::Refusal>(())
    /// ```
    #[inline]
    pub fn setup(&mut self) -> Result<(), Refusal> {
        done(unsafe { library::vcpu_setup(self.words()) })
    }

    /// Where the guest starts.
    ///
    /// ```
    /// # use curbizzolu::{GuestPhysAddr, Vcpu};
    /// let mut vcpu = Vcpu::new(0, 0);
    /// vcpu.set_entry(GuestPhysAddr(0x8000_0000))?;
    /// assert_eq!(vcpu.sepc, 0x8000_0000);
    /// # Ok::<(), curbizzolu::Refusal>(())
    /// ```
    #[inline]
    pub fn set_entry(&mut self, entry: GuestPhysAddr) -> Result<(), Refusal> {
        done(unsafe { library::vcpu_set_entry(self.words(), entry.0) })
    }

    /// Reads a general register; x0 reads 0. It is never out of turn.
    ///
    /// ```
    /// # use curbizzolu::Vcpu;
    /// assert_eq!(Vcpu::new(5, 0).get_gpr(10), Ok(5));
    /// ```
    #[inline]
    pub fn get_gpr(&self, index: usize) -> Result<u64, Refusal> {
        let mut out = MaybeUninit::<Out>::uninit();
        // SAFETY: a call that takes an `out` is proved to set all eight words of it, whatever it returns.
        let (code, out) = unsafe {
            let record = self as *const Vcpu as *const Record;
            (library::vcpu_get_gpr(record, index as u64, out.as_mut_ptr()), out.assume_init_ref())
        };
        match code {
            VALUE => Ok(out.0[0]),
            _ => Err(refusal(code)),
        }
    }

    /// Writes a general register; x0 stays.
    ///
    /// ```
    /// # use curbizzolu::{Refusal, Vcpu};
    /// let mut vcpu = Vcpu::new(0, 0);
    /// assert_eq!(vcpu.set_gpr(7, 9), Ok(()));
    /// assert_eq!(vcpu.set_gpr(32, 9), Err(Refusal::InvalidInput));
    /// ```
    #[inline]
    pub fn set_gpr(&mut self, index: usize, value: u64) -> Result<(), Refusal> {
        done(unsafe { library::vcpu_set_gpr(self.words(), index as u64, value) })
    }

    /// Writes a0: a hypercall's result.
    ///
    /// ```
    /// # use curbizzolu::Vcpu;
    /// let mut vcpu = Vcpu::new(0, 0);
    /// vcpu.set_return_value(1)?;
    /// assert_eq!(vcpu.get_gpr(10), Ok(1));
    /// # Ok::<(), curbizzolu::Refusal>(())
    /// ```
    #[inline]
    pub fn set_return_value(&mut self, value: u64) -> Result<(), Refusal> {
        done(unsafe { library::vcpu_set_return_value(self.words(), value) })
    }

    /// Sets the guest-stage page table.
    ///
    /// ```
    /// # use curbizzolu::{HostPhysAddr, NestedPagingConfig, Vcpu};
    /// let mut vcpu = Vcpu::new(0, 0);
    /// vcpu.set_nested_page_table(NestedPagingConfig { root_paddr: HostPhysAddr(0x8000_4000), levels: 3, mode: 8 })?;
    /// assert_eq!(vcpu.hgatp, 0x8000_0000_0008_0004);
    /// # Ok::<(), curbizzolu::Refusal>(())
    /// ```
    #[inline]
    pub fn set_nested_page_table(&mut self, config: NestedPagingConfig) -> Result<(), Refusal> {
        let NestedPagingConfig { root_paddr, levels, mode } = config;
        done(unsafe { library::vcpu_set_nested_page_table(self.words(), levels, mode, root_paddr.0) })
    }

    /// Sets or clears a pending interrupt of the guest, by the host's vector: 2^63 + 1 software, 2^63 + 5 timer, 9 or
    /// 2^63 + 9 external.
    ///
    /// ```
    /// # use curbizzolu::{Refusal, Vcpu};
    /// let mut vcpu = Vcpu::new(0, 0);
    /// vcpu.set_virtual_interrupt_pending((1 << 63) + 5, true)?;
    /// assert_eq!(vcpu.hvip, 1 << 6);
    /// assert_eq!(vcpu.set_virtual_interrupt_pending(5, true), Err(Refusal::InvalidInput));
    /// # Ok::<(), Refusal>(())
    /// ```
    #[inline]
    pub fn set_virtual_interrupt_pending(&mut self, vector: u64, pending: bool) -> Result<(), Refusal> {
        done(unsafe { library::vcpu_set_pending(self.words(), vector, pending as u64) })
    }

    /// Sets and clears pending interrupts of the guest in order, in one call: a row of posts comes to the same as
    /// [`set_virtual_interrupt_pending`](Vcpu::set_virtual_interrupt_pending) for each in turn, up to the first that is refused. That
    /// one changes nothing, those before it stay applied, and those behind it are not looked at. While an ask waits the row is refused
    /// before its first post, an empty row too.
    ///
    /// ```
    /// # use curbizzolu::{Post, Posted, Refusal, Trap, Vcpu, S_EXT, S_TIMER};
    /// let mut vcpu = Vcpu::new(0, 0);
    /// let given = vcpu.post(&[Post::set(S_EXT), Post::set(S_TIMER), Post::clear(S_EXT)]);
    /// assert_eq!(given, Posted { applied: 3, refusal: None });
    /// assert_eq!(vcpu.hvip, 1 << 6);
    ///
    /// // a trap that asks for its instruction
    /// let _ = vcpu.start(&Trap { scause: 21, ..Trap::default() });
    /// assert_eq!(vcpu.post(&[]), Posted { applied: 0, refusal: Some(Refusal::BadState) });
    /// ```
    #[inline]
    pub fn post(&mut self, posts: &[Post]) -> Posted {
        // SAFETY: the record and the row are lent for the call and do not overlap; the library looks at no post past the count.
        posted(unsafe { library::vcpu_post_row(self.words(), posts.as_ptr(), posts.len()) })
    }

    /// Sets a pending interrupt of the guest.
    ///
    /// ```
    /// # use curbizzolu::Vcpu;
    /// let mut vcpu = Vcpu::new(0, 0);
    /// vcpu.inject_interrupt((1 << 63) + 1)?;
    /// assert_eq!(vcpu.hvip, 1 << 2);
    /// # Ok::<(), curbizzolu::Refusal>(())
    /// ```
    #[inline]
    pub fn inject_interrupt(&mut self, vector: u64) -> Result<(), Refusal> {
        self.set_virtual_interrupt_pending(vector, true)
    }

    /// The level of the guest's external interrupt line.
    ///
    /// ```
    /// # use curbizzolu::Vcpu;
    /// let mut vcpu = Vcpu::new(0, 0);
    /// vcpu.set_vseip_level(true)?;
    /// assert_eq!(vcpu.hvip, 1 << 10);
    /// vcpu.set_vseip_level(false)?;
    /// assert_eq!(vcpu.hvip, 0);
    /// # Ok::<(), curbizzolu::Refusal>(())
    /// ```
    #[inline]
    pub fn set_vseip_level(&mut self, asserted: bool) -> Result<(), Refusal> {
        self.set_virtual_interrupt_pending(9, asserted)
    }

    /// Latches pending bits that the hardware raised: what the host read from hvip.
    ///
    /// ```
    /// # use curbizzolu::Vcpu;
    /// let mut vcpu = Vcpu::new(0, 0);
    /// vcpu.latch_hvip(1 << 6)?;
    /// vcpu.latch_hvip(1 << 2)?;
    /// assert_eq!(vcpu.hvip, 1 << 6 | 1 << 2);
    /// # Ok::<(), curbizzolu::Refusal>(())
    /// ```
    #[inline]
    pub fn latch_hvip(&mut self, bits: u64) -> Result<(), Refusal> {
        done(unsafe { library::vcpu_latch_hvip(self.words(), bits) })
    }

    /// Gives the guest the result of an IPI request, after [`Exit::SendIpi`].
    ///
    /// ```
    /// # use curbizzolu::{IpiAbi, IpiCompletion, IpiRequest, Vcpu};
    /// let mut vcpu = Vcpu::new(0, 0);
    /// let request = IpiRequest { hart_mask: 1, hart_mask_base: 99, abi: IpiAbi::SbiV02 };
    /// vcpu.complete_ipi(request, IpiCompletion::InvalidParameter)?;
    /// assert_eq!(vcpu.get_gpr(10), Ok(-3_i64 as u64));
    /// # Ok::<(), curbizzolu::Refusal>(())
    /// ```
    #[inline]
    pub fn complete_ipi(&mut self, request: IpiRequest, completion: IpiCompletion) -> Result<(), Refusal> {
        let abi = match request.abi {
            IpiAbi::Legacy => 0,
            IpiAbi::SbiV02 => 1,
        };
        let completion = match completion {
            IpiCompletion::Success => 0,
            IpiCompletion::InvalidParameter => -3_i64 as u64,
            IpiCompletion::Failed => -1_i64 as u64,
        };
        done(unsafe { library::vcpu_complete_ipi(self.words(), abi, completion) })
    }

    /// Starts a trap.
    ///
    /// ```
    /// # use curbizzolu::{Exit, Step, Trap, Vcpu};
    /// let mut vcpu = Vcpu::new(0, 0);
    /// vcpu.latch_hvip(1 << 6 | 1 << 2)?; // a tick and an IPI are pending
    /// vcpu.set_gpr(17, 0x54494D45)?; // a7: TIME
    /// vcpu.set_gpr(10, 1000)?;
    /// let step = vcpu.start(&Trap { scause: 10, ..Trap::default() })?;
    /// assert_eq!(step, Step::Exit(Exit::Nothing));
    /// assert_eq!((vcpu.vstimecmp, vcpu.sepc, vcpu.counts[0]), (1000, 4, 1));
    /// assert_eq!(vcpu.hvip, 1 << 2); // the old tick is gone
    /// # Ok::<(), curbizzolu::Error>(())
    /// ```
    #[inline(always)]
    pub fn start(&mut self, trap: &Trap) -> Result<Step, Error> {
        let mut out = MaybeUninit::<Out>::uninit();
        // the five words in the library's order
        let trap = trap as *const Trap as *const [u64; 5];
        // SAFETY: as in `get_gpr`.
        let (code, out) = unsafe { (library::vcpu_start(self.words(), trap, out.as_mut_ptr()), out.assume_init_ref()) };
        step(code, &out.0)
    }

    /// Answers the ask that waits. An answer of another kind is refused, and the ask goes on waiting.
    ///
    /// ```
    /// # use curbizzolu::{Answer, Ask, Exit, Step, Trap, Vcpu};
    /// let mut vcpu = Vcpu::new(0, 0);
    /// vcpu.set_gpr(17, 1)?; // a7: the legacy call that prints a character
    /// vcpu.set_gpr(10, 0x41)?;
    /// let step = vcpu.start(&Trap { scause: 10, ..Trap::default() })?;
    /// assert_eq!(step, Step::Ask(Ask::Emit { number: 0x41 }));
    /// assert_eq!(vcpu.answer(&Answer::Emitted)?, Step::Exit(Exit::Nothing));
    /// # Ok::<(), curbizzolu::Error>(())
    /// ```
    #[inline(always)]
    pub fn answer(&mut self, answer: &Answer) -> Result<Step, Error> {
        let mut out = MaybeUninit::<Out>::uninit();
        let answer = answer_words(answer);
        // SAFETY: as in `get_gpr`.
        let (code, out) = unsafe { (library::vcpu_answer(self.words(), &answer, out.as_mut_ptr()), out.assume_init_ref()) };
        step(code, &out.0)
    }

    /// Completes the load that waits, after [`Exit::MmioRead`]: the number is cut to the load's width, extended as the
    /// instruction says, and written to its register.
    ///
    /// ```
    /// # use curbizzolu::{Exit, GuestPhysAddr, Step, Trap, Vcpu, Width};
    /// let mut vcpu = Vcpu::new(0, 0);
    /// let trap = Trap { scause: 21, htval: 0x400_0000, htinst: 0x2383, ..Trap::default() }; // lw x7
    /// let read = Exit::MmioRead { addr: GuestPhysAddr(0x1000_0000), width: Width::Word };
    /// assert_eq!(vcpu.start(&trap)?, Step::Exit(read));
    /// vcpu.complete_load(0x8000_0000)?;
    /// assert_eq!(vcpu.get_gpr(7), Ok(0xFFFF_FFFF_8000_0000));
    /// # Ok::<(), curbizzolu::Error>(())
    /// ```
    #[inline]
    pub fn complete_load(&mut self, number: u64) -> Result<(), Refusal> {
        done(unsafe { library::vcpu_complete_load(self.words(), number) })
    }

    /// The bytes to print: the buffer's first n while [`Ask::Print`] with count n waits, if it has n; else none.
    ///
    /// ```
    /// # use curbizzolu::Vcpu;
    /// assert_eq!(Vcpu::new(0, 0).to_print(b"nothing waits"), b"");
    /// ```
    #[inline]
    pub fn to_print<'a>(&self, buffer: &'a [u8]) -> &'a [u8] {
        // no more than the buffer has
        let count = unsafe { library::vcpu_to_print(self as *const Vcpu as *const Record, buffer.len() as u64) };
        &buffer[..count as usize]
    }
}
