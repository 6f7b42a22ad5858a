//! The guest's run: it ends at once with the trap that was posted.

use std::cell::Cell;

use crate::regs::VmCpuRegisters;

thread_local! {
    static NEXT: Cell<[usize; 4]> = const { Cell::new([0; 4]) };
}

/// Posts scause, stval, htval and htinst for the next run.
pub fn post(numbers: [usize; 4]) {
    NEXT.with(|next| next.set(numbers));
}

/// The entry code's name in the published text.
#[no_mangle]
pub extern "C" fn _run_guest(_state: *mut VmCpuRegisters) {
    let [scause, stval, htval, htinst] = NEXT.with(|next| next.get());
    // The hart's own interrupts are off while a guest runs.
    if scripted::live().sstatus & 2 != 0 {
        scripted::ask(scripted::Request::Unknown { what: "run with interrupts on", number: 0 });
    }
    scripted::with_live(|live| {
        live.scause = scause;
        live.stval = stval;
        live.htval = htval;
        live.htinst = htinst;
    });
}
