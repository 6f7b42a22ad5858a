//! Stands in for riscv_h: the hypervisor and VS CSRs over the live record.

pub mod register;
