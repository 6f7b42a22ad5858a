//! Stands in for host: nothing of it is called but through the console.

/// What a host offers to a vCPU.
pub trait RiscvHostOps {}

/// The scripted host.
pub struct Scripted;

impl RiscvHostOps for Scripted {}
