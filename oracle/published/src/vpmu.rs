//! Stands in for vpmu: event counts only, by 01's numbers. Loads and stores
//! are counted apart, since 01 has no event for them.

use scripted::{count, count_access};

#[derive(Default)]
pub struct VirtualPmu;

impl VirtualPmu {
    pub fn backend_bind(&mut self) {}

    pub fn backend_unbind(&mut self) {}

    pub fn record_set_timer(&mut self) {
        count(1)
    }

    pub fn record_illegal_insn(&mut self) {
        count(2)
    }

    pub fn record_fence_i_sent(&mut self) {
        count(3)
    }

    pub fn record_sfence_vma_sent(&mut self) {
        count(4)
    }

    pub fn record_sfence_vma_asid_sent(&mut self) {
        count(5)
    }

    pub fn record_hfence_gvma_vmid_sent(&mut self) {
        count(6)
    }

    pub fn record_hfence_gvma_sent(&mut self) {
        count(7)
    }

    pub fn record_hfence_vvma_asid_sent(&mut self) {
        count(8)
    }

    pub fn record_hfence_vvma_sent(&mut self) {
        count(9)
    }

    pub fn record_access_load(&mut self) {
        count_access(0)
    }

    pub fn record_access_store(&mut self) {
        count_access(1)
    }
}
