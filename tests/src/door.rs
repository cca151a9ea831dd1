//! What every call of the C door answers, as include/dowelbrook.h declares it.

#[repr(C)]
#[derive(Clone, Copy, Debug, Default, PartialEq, Eq)]
pub struct Reply {
    pub number: u32,
    pub prime: u32,
    pub ring: usize,
    pub place: usize,
}

pub const DONE: Reply = Reply { number: 0, prime: 0, ring: 0, place: 0 };

/// What same feeding answers. The other calls' answers are brought into this form.
#[repr(C)]
#[derive(Clone, Copy, Debug, PartialEq, Eq)]
pub struct Verdict {
    pub reply: Reply,
    /// 1 for yes, else 0.
    pub same: usize,
}

impl From<Reply> for Verdict {
    fn from(reply: Reply) -> Verdict {
        Verdict { reply, same: 0 }
    }
}
