//! The original's method sets and program kinds, by LANGUAGE.md's numbers.

use crate::ast::ProgramKind::{self, *};
use crate::ir::ctx::CtxMethod;

/// Every program kind, at the index that is its number.
pub const PROGRAM_KINDS: [ProgramKind; 11] = [
    Xdp,
    Tc,
    Socket,
    Cgroup,
    Kprobe,
    Tracepoint,
    RawTracepoint,
    Fentry,
    Fexit,
    Lsm,
    Unknown,
];

/// A kind's allowed methods as ones, method 0 the lowest bit.
pub fn mask_of(kind: ProgramKind) -> u16 {
    kind.allowed_ctx_methods()
        .iter()
        .fold(0, |mask, &method| mask | 1 << number_of_method(method))
}

/// LoadU8 0 to ProbeReadKernelStr 15.
fn number_of_method(method: CtxMethod) -> u32 {
    method as u32
}

/// The number of the kind that a section's text gives.
pub fn kind_of_section(section: &str) -> u32 {
    ProgramKind::from_section(section) as u32
}

#[cfg(test)]
mod tests {
    use super::*;

    #[test]
    fn every_program_kind_stands_at_its_number() {
        for (index, kind) in PROGRAM_KINDS.iter().enumerate() {
            assert_eq!(*kind as usize, index);
        }
    }
}
