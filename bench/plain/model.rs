//! What a scenario and a history hold: the same types as the program's, so bytes and tasks stand in line.

/// At most 256 bytes.
#[derive(Clone, Copy, PartialEq, Eq)]
pub struct ByteLine {
    bytes: [u8; 256],
    len: usize,
}

impl ByteLine {
    pub fn new(from: &[u8]) -> ByteLine {
        let mut bytes = [0; 256];
        bytes[..from.len()].copy_from_slice(from);
        ByteLine { bytes, len: from.len() }
    }

    pub fn as_slice(&self) -> &[u8] {
        &self.bytes[..self.len]
    }
}

/// At most 64 tasks.
#[derive(Clone, Copy, PartialEq, Eq)]
pub struct TaskLine {
    tasks: [u32; 64],
    len: usize,
}

impl TaskLine {
    pub fn new(from: &[u32]) -> TaskLine {
        let mut tasks = [0; 64];
        tasks[..from.len()].copy_from_slice(from);
        TaskLine { tasks, len: from.len() }
    }

    pub fn as_slice(&self) -> &[u32] {
        &self.tasks[..self.len]
    }
}

#[derive(Clone, Copy, PartialEq, Eq)]
pub enum State {
    Nonvolatile,
    Volatile,
    Empty,
}

#[derive(Clone, Copy, PartialEq, Eq)]
pub enum Move {
    Deactivated,
    Reactivated,
    Freed,
    Compressed,
    Requeued,
}

pub struct TaskBoot {
    pub band: u8,
    pub active: (u32, bool),
    pub inactive: (u32, bool),
    pub internal: bool,
    pub delay: u32,
    pub ageing: u8,
}

pub struct ObjBoot {
    pub tasks: u64,
    pub pages: u32,
}

#[derive(Default)]
pub struct Boot {
    pub frames: u32,
    pub target: u32,
    pub inactive: u32,
    pub store: u32,
    pub critical: u32,
    pub tasks: Vec<TaskBoot>,
    pub objects: Vec<ObjBoot>,
    pub sides: Vec<Option<u32>>,
}

#[derive(Clone, Copy, PartialEq, Eq)]
pub enum Call {
    Map(u32),
    Attach(u32),
    Unmap(u32),
    Write(u32, u32, ByteLine),
    Read(u32, u32, u32),
    Set(u32, u32),
    Get(u32),
    Active(bool),
    Ledger,
    Exit,
    PurgeOne,
    Forced,
    Scan,
    Tick,
    Jetsam,
    SetBand(u32, u8),
    SetLimits(u32, (u32, bool), (u32, bool)),
    Info,
    Purgeables,
}

impl Call {
    pub fn object(&self) -> Option<u32> {
        match self {
            Call::Map(o) | Call::Attach(o) | Call::Unmap(o) | Call::Write(o, ..) | Call::Read(o, ..) | Call::Set(o, _) | Call::Get(o) => Some(*o),
            _ => None,
        }
    }
}

pub type Counts = [u32; 5];

#[derive(Clone, Copy, PartialEq, Eq)]
pub enum Reply {
    Mapped,
    Attached,
    Unmapped,
    Wrote,
    Bytes(ByteLine),
    Old(State),
    Is(State),
    Was(bool),
    Pages(Counts),
    Exited,
    Purged(u32),
    Nothing,
    Enough,
    Idle,
    Moved(Move, u32, u32),
    Aged(TaskLine),
    Quiet,
    NoVictim,
    Killed(u32, &'static str),
    Banded,
    Limited,
    Frames([u64; 6]),
    Tokens([u64; 12]),
    Refused(&'static str),
    Shortage(u32, u32),
}

#[derive(Clone, Copy)]
pub struct Entry {
    pub who: usize,
    pub call: Call,
    pub reply: Reply,
}

#[derive(Default)]
pub struct Scenario {
    pub boot: Boot,
    pub scripts: Vec<Vec<Call>>,
    pub order: Vec<usize>,
}
