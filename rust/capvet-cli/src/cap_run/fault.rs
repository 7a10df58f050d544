// crates/cap_run/src/fault.rt without its contracts, by tools/erase: that text is proved, this one is only tested.
//! The fault of a sink's output.

use capvet_core::cap_words::{OutFault, SinkFault};

/// The fault of a sink's output.
pub(crate) fn output_fault(fault: SinkFault) -> OutFault {
    match fault {
        SinkFault::Device => OutFault::Device,
        SinkFault::Memory => OutFault::Memory,
        SinkFault::Spent => OutFault::Spent,
    }
}
