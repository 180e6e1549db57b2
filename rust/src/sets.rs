//! Program kinds and the context methods that each allows.

use crate::lent;
use std::fmt;

/// What a unit is, by its first section. A later version may have more kinds.
#[derive(Debug, Clone, Copy, PartialEq, Eq, Hash)]
#[repr(u32)]
#[non_exhaustive]
pub enum ProgramKind {
    /// A packet at the driver: `xdp`.
    Xdp = 0,
    /// A packet in traffic control: `classifier`, or a section that begins with `tc`.
    Tc = 1,
    /// A packet at a socket: `sk_..`.
    Socket = 2,
    /// A control group: `cgroup/..`.
    Cgroup = 3,
    /// A kernel function: `kprobe/..` or `kretprobe/..`.
    Kprobe = 4,
    /// A tracepoint: `tracepoint/..`.
    Tracepoint = 5,
    /// A raw tracepoint: `raw_tracepoint/..`.
    RawTracepoint = 6,
    /// A function's entry: `fentry/..`.
    Fentry = 7,
    /// A function's exit: `fexit/..`.
    Fexit = 8,
    /// A security hook: `lsm/..`.
    Lsm = 9,
    /// No section, or one that gives no kind.
    Unknown = 10,
}

/// A context method. A later version may have more of them.
#[derive(Debug, Clone, Copy, PartialEq, Eq, Hash)]
#[repr(u32)]
#[non_exhaustive]
pub enum Method {
    /// `load_u8`.
    LoadU8 = 0,
    /// `load_u16`.
    LoadU16 = 1,
    /// `load_u32`.
    LoadU32 = 2,
    /// `load_u64`.
    LoadU64 = 3,
    /// `load_i8`.
    LoadI8 = 4,
    /// `load_i16`.
    LoadI16 = 5,
    /// `load_i32`.
    LoadI32 = 6,
    /// `load_i64`.
    LoadI64 = 7,
    /// `load_bytes`.
    LoadBytes = 8,
    /// `get_pid_tgid`.
    GetPidTgid = 9,
    /// `get_uid_gid`.
    GetUidGid = 10,
    /// `get_current_comm`.
    GetCurrentComm = 11,
    /// `get_current_task`.
    GetCurrentTask = 12,
    /// `get_ktime_ns`.
    GetKtimeNs = 13,
    /// `probe_read_user_str`.
    ProbeReadUserStr = 14,
    /// `probe_read_kernel_str`.
    ProbeReadKernelStr = 15,
}

impl ProgramKind {
    /// Every kind, at the index that is its number.
    pub const ALL: &'static [ProgramKind] = &[
        ProgramKind::Xdp,
        ProgramKind::Tc,
        ProgramKind::Socket,
        ProgramKind::Cgroup,
        ProgramKind::Kprobe,
        ProgramKind::Tracepoint,
        ProgramKind::RawTracepoint,
        ProgramKind::Fentry,
        ProgramKind::Fexit,
        ProgramKind::Lsm,
        ProgramKind::Unknown,
    ];

    /// The kind with this number.
    #[inline]
    pub fn from_number(number: u32) -> Option<ProgramKind> {
        ProgramKind::ALL.get(number as usize).copied()
    }

    /// The kind's name in small letters.
    pub fn name(self) -> &'static str {
        match self {
            ProgramKind::Xdp => "xdp",
            ProgramKind::Tc => "tc",
            ProgramKind::Socket => "socket",
            ProgramKind::Cgroup => "cgroup",
            ProgramKind::Kprobe => "kprobe",
            ProgramKind::Tracepoint => "tracepoint",
            ProgramKind::RawTracepoint => "raw tracepoint",
            ProgramKind::Fentry => "fentry",
            ProgramKind::Fexit => "fexit",
            ProgramKind::Lsm => "lsm",
            ProgramKind::Unknown => "unknown",
        }
    }
}

impl Method {
    /// Every method, at the index that is its number.
    pub const ALL: &'static [Method] = &[
        Method::LoadU8,
        Method::LoadU16,
        Method::LoadU32,
        Method::LoadU64,
        Method::LoadI8,
        Method::LoadI16,
        Method::LoadI32,
        Method::LoadI64,
        Method::LoadBytes,
        Method::GetPidTgid,
        Method::GetUidGid,
        Method::GetCurrentComm,
        Method::GetCurrentTask,
        Method::GetKtimeNs,
        Method::ProbeReadUserStr,
        Method::ProbeReadKernelStr,
    ];

    /// The method's name in the language.
    pub fn name(self) -> &'static str {
        match self {
            Method::LoadU8 => "load_u8",
            Method::LoadU16 => "load_u16",
            Method::LoadU32 => "load_u32",
            Method::LoadU64 => "load_u64",
            Method::LoadI8 => "load_i8",
            Method::LoadI16 => "load_i16",
            Method::LoadI32 => "load_i32",
            Method::LoadI64 => "load_i64",
            Method::LoadBytes => "load_bytes",
            Method::GetPidTgid => "get_pid_tgid",
            Method::GetUidGid => "get_uid_gid",
            Method::GetCurrentComm => "get_current_comm",
            Method::GetCurrentTask => "get_current_task",
            Method::GetKtimeNs => "get_ktime_ns",
            Method::ProbeReadUserStr => "probe_read_user_str",
            Method::ProbeReadKernelStr => "probe_read_kernel_str",
        }
    }

    /// The method with this name in the language.
    pub fn from_name(name: &str) -> Option<Method> {
        let mut all = Method::ALL.iter().copied();
        all.find(|method| method.name() == name)
    }
}

/// The kind's name.
impl fmt::Display for ProgramKind {
    fn fmt(&self, out: &mut fmt::Formatter<'_>) -> fmt::Result {
        out.write_str(self.name())
    }
}

/// The method's name in the language.
impl fmt::Display for Method {
    fn fmt(&self, out: &mut fmt::Formatter<'_>) -> fmt::Result {
        out.write_str(self.name())
    }
}

/// The program kind that a section's text gives.
pub fn section_kind(section: &[u8]) -> ProgramKind {
    ProgramKind::from_number(lent::section_kind(section)).unwrap_or(ProgramKind::Unknown)
}

/// Whether a program kind allows a context method.
pub fn allows(kind: ProgramKind, method: Method) -> bool {
    lent::allows(kind as u32, method as u32)[lent::FIRST] == 1
}

/// How many context methods a program kind allows.
pub fn set_size(kind: ProgramKind) -> u32 {
    lent::set_size(kind as u32)[lent::FIRST]
}
