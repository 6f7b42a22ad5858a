//! Stands in for rustsbi: an ecall that the vCPU does not handle itself goes
//! to the scripted host as it is. The crate's own dispatch isn't at hand.

pub use rustsbi_derive::RustSBI;
pub use sbi_spec::binary::{HartMask, SbiRet};

/// Handles an ecall by forwarding it.
pub trait RustSBI {
    fn handle_ecall(&self, eid: usize, fid: usize, param: [usize; 6]) -> SbiRet;
}

/// The host's own SBI.
#[derive(Clone, Copy, Debug, Default)]
pub struct Forward;

impl Forward {
    pub fn forward(&self, eid: usize, fid: usize, param: [usize; 6]) -> SbiRet {
        let script = scripted::ask(scripted::Request::Forward {
            eid: eid as u64,
            fid: fid as u64,
            args: param.map(|number| number as u64),
        });
        SbiRet {
            error: script.forward.0 as usize,
            value: script.forward.1 as usize,
        }
    }
}

/// An implementation of the IPI extension.
pub trait Ipi {
    fn send_ipi(&self, hart_mask: HartMask) -> SbiRet;
}
