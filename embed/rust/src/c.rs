//! The declarations of `include/lwcrun.h`.

use crate::{Name, Slot as SlotSeen, Thread as ThreadSeen, ThreadStatus};
use std::ptr;

#[repr(C)]
#[derive(Clone, Copy)]
pub struct Bytes {
    pub at: *const u8,
    pub length: usize,
}

impl Bytes {
    /// The bytes of a slice, which has to live for as long as they are used.
    pub fn of(bytes: &[u8]) -> Bytes {
        Bytes {
            at: bytes.as_ptr(),
            length: bytes.len(),
        }
    }
}

impl Default for Bytes {
    fn default() -> Self {
        Bytes {
            at: ptr::null(),
            length: 0,
        }
    }
}

#[repr(C)]
pub struct File {
    pub name: Bytes,
    pub bytes: Bytes,
}

#[repr(C)]
#[derive(Default)]
pub struct Answer {
    pub output: Bytes,
    pub message: Bytes,
}

#[repr(C)]
#[derive(Default)]
pub struct Thread {
    pub code: u64,
    pub pc: u64,
    pub registers: [u64; 16],
    pub status: u32,
    pub job: u32,
    pub context: u32,
}

impl Thread {
    /// The thread as this crate's callers see it.
    pub fn seen(&self) -> ThreadSeen {
        ThreadSeen {
            status: match self.status {
                0 => ThreadStatus::Idle,
                1 => ThreadStatus::Running,
                2 => ThreadStatus::Done(self.code),
                _ => ThreadStatus::Fault(self.code),
            },
            registers: self.registers,
            pc: self.pc,
            context: Name {
                job: self.job,
                k: self.context,
            },
        }
    }
}

#[repr(C)]
#[derive(Default)]
pub struct Totals {
    pub threads: u32,
    pub steps: u32,
    pub work: u32,
    pub contexts: u32,
    pub frames: u32,
    pub peak: u32,
}

#[repr(C)]
#[derive(Default)]
pub struct Slot {
    pub kind: u32,
    pub first: u32,
    pub second: u32,
}

impl Slot {
    /// The slot as this crate's callers see it.
    pub fn seen(&self) -> SlotSeen {
        let Slot {
            kind,
            first,
            second,
        } = *self;
        match kind {
            0 => SlotSeen::Empty,
            1 => SlotSeen::Console,
            2 => SlotSeen::File {
                file: first,
                at: second,
            },
            3 => SlotSeen::Request {
                request: first,
                at: second,
            },
            4 => SlotSeen::Reply { request: first },
            _ => SlotSeen::Context(Name {
                job: first,
                k: second,
            }),
        }
    }
}

unsafe extern "C" {
    pub fn lwcrun_line(
        words: *const Bytes,
        word_count: usize,
        files: *const File,
        file_count: usize,
        answer: *mut Answer,
    ) -> i32;
    pub fn lwcrun_free(answer: *mut Answer);
    pub fn lwcrun_open(
        image: Bytes,
        requests: Bytes,
        frames: u32,
        budget: u32,
        workers: u32,
        run: *mut u64,
    ) -> i32;
    pub fn lwcrun_step(run: u64, thread: u32, after: *mut Thread) -> i32;
    pub fn lwcrun_thread(run: u64, thread: u32, state: *mut Thread) -> i32;
    pub fn lwcrun_totals(run: u64, totals: *mut Totals) -> i32;
    pub fn lwcrun_page(run: u64, job: u32, context: u32, page: u32, bytes: *mut u8) -> i32;
    pub fn lwcrun_slot(run: u64, job: u32, context: u32, slot: u32, state: *mut Slot) -> i32;
    pub fn lwcrun_close(run: u64) -> i32;
}
