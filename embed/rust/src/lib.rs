//! The kernel from Rust: lines carried out over bytes in memory, and runs that are made step by step.
//!
//! The C functions are declared in one private module by hand, to fit `include/lwcrun.h`. Everything else is safe.

mod c;

use std::fmt;
use std::slice;

/// The bytes of a page.
pub const PAGE_BYTES: usize = 4096;

/// Why a call did not end well. The first seven are the exit statuses of the program.
#[derive(Clone, Copy, Debug, PartialEq, Eq)]
pub enum Status {
    NoMemory,
    Usage,
    CannotRead,
    CannotWrite,
    ImageRefused,
    InputRefused,
    ImageTooLarge,
    /// The line starts threads, which the library cannot.
    NeedsThreads,
    NotText,
    BadSettings,
    BadStep,
    Missing,
    /// A status that this crate does not await.
    Other(i32),
}

impl Status {
    /// The status of a number other than 0.
    fn of(number: i32) -> Status {
        match number {
            1 => Status::NoMemory,
            2 => Status::Usage,
            3 => Status::CannotRead,
            4 => Status::CannotWrite,
            5 => Status::ImageRefused,
            6 => Status::InputRefused,
            7 => Status::ImageTooLarge,
            8 => Status::NeedsThreads,
            9 => Status::NotText,
            10 => Status::BadSettings,
            11 => Status::BadStep,
            12 => Status::Missing,
            other => Status::Other(other),
        }
    }
}

/// A call that did not end well: its status, and what the program says of it.
#[derive(Clone, Debug, PartialEq, Eq)]
pub struct Error {
    pub status: Status,
    pub message: String,
}

impl fmt::Display for Error {
    fn fmt(&self, f: &mut fmt::Formatter<'_>) -> fmt::Result {
        if self.message.is_empty() {
            write!(f, "{:?}", self.status)
        } else {
            f.write_str(self.message.trim_end())
        }
    }
}

impl std::error::Error for Error {}

/// `Ok` where the number is 0.
fn checked(number: i32) -> Result<(), Error> {
    match number {
        0 => Ok(()),
        other => Err(Error {
            status: Status::of(other),
            message: String::new(),
        }),
    }
}

/// Carries out a line of the program, its words from the mode on, over these files, and gives what it writes.
pub fn carry_out(words: &[&str], files: &[(&str, &[u8])]) -> Result<Vec<u8>, Error> {
    let words: Vec<c::Bytes> = words
        .iter()
        .map(|word| c::Bytes::of(word.as_bytes()))
        .collect();
    let files: Vec<c::File> = files
        .iter()
        .map(|(name, bytes)| c::File {
            name: c::Bytes::of(name.as_bytes()),
            bytes: c::Bytes::of(bytes),
        })
        .collect();
    let mut answer = c::Answer::default();
    // SAFETY: the pointers lead to as many words and files as are said, which live until the call returns.
    let status = unsafe {
        c::lwcrun_line(
            words.as_ptr(),
            words.len(),
            files.as_ptr(),
            files.len(),
            &mut answer,
        )
    };
    let (output, message) = (copy_of(answer.output), copy_of(answer.message));
    // SAFETY: the answer is what the call put there, and nothing of it is used from here on.
    unsafe { c::lwcrun_free(&mut answer) };
    match status {
        0 => Ok(output),
        other => Err(Error {
            status: Status::of(other),
            message: String::from_utf8_lossy(&message).into_owned(),
        }),
    }
}

/// A copy of bytes that the library put there.
fn copy_of(bytes: c::Bytes) -> Vec<u8> {
    if bytes.length == 0 {
        return Vec::new();
    }
    // SAFETY: the library put there a pointer to this many bytes, which are freed later.
    unsafe { slice::from_raw_parts(bytes.at, bytes.length) }.to_vec()
}

/// The image of a source.
pub fn assemble(source: &str) -> Result<Vec<u8>, Error> {
    carry_out(&["asm", "source"], &[("source", source.as_bytes())])
}

/// What a run or a serve is opened with. With no workers it is a run.
#[derive(Clone, Copy, Debug, PartialEq, Eq)]
pub struct Settings {
    pub frames: u32,
    pub budget: u32,
    pub workers: u32,
}

impl Default for Settings {
    /// The program's frames and budget, and no workers.
    fn default() -> Self {
        Settings {
            frames: 4096,
            budget: 10000,
            workers: 0,
        }
    }
}

/// The status of a thread.
#[derive(Clone, Copy, Debug, PartialEq, Eq)]
pub enum ThreadStatus {
    Idle,
    Running,
    Done(u64),
    /// Faulted by the fault of this number.
    Fault(u64),
}

/// The name of a context, as `job.k` in a report.
#[derive(Clone, Copy, Debug, PartialEq, Eq)]
pub struct Name {
    pub job: u32,
    pub k: u32,
}

/// A thread of a run.
#[derive(Clone, Copy, Debug, PartialEq, Eq)]
pub struct Thread {
    pub status: ThreadStatus,
    pub registers: [u64; 16],
    pub pc: u64,
    pub context: Name,
}

impl Thread {
    /// Whether the thread makes no more steps.
    pub fn has_ended(&self) -> bool {
        matches!(self.status, ThreadStatus::Done(_) | ThreadStatus::Fault(_))
    }
}

/// The size of a run: its threads, the steps that were made, how many more its threads may make, the live contexts, and
/// the frames in use, now and at most so far.
#[derive(Clone, Copy, Debug, PartialEq, Eq)]
pub struct Totals {
    pub threads: u32,
    pub steps: u32,
    pub work: u32,
    pub contexts: u32,
    pub frames: u32,
    pub peak: u32,
}

/// What a slot has.
#[derive(Clone, Copy, Debug, PartialEq, Eq)]
pub enum Slot {
    Empty,
    Console,
    File { file: u32, at: u32 },
    Request { request: u32, at: u32 },
    Reply { request: u32 },
    Context(Name),
}

/// A run that is made step by step, and closed where it is dropped. Each step replays the run from its start.
#[derive(Debug)]
pub struct Run {
    number: u64,
}

impl Run {
    /// A run of an image, or where the settings have workers a serve of the requests, written as in a file of requests.
    pub fn open(image: &[u8], requests: &[u8], settings: Settings) -> Result<Run, Error> {
        let Settings {
            frames,
            budget,
            workers,
        } = settings;
        let mut number = 0;
        // SAFETY: both slices live until the call returns, which copies them.
        checked(unsafe {
            c::lwcrun_open(
                c::Bytes::of(image),
                c::Bytes::of(requests),
                frames,
                budget,
                workers,
                &mut number,
            )
        })?;
        Ok(Run { number })
    }

    /// Makes one step of a thread, and gives how it is then. A thread that has ended makes none.
    pub fn step(&mut self, thread: u32) -> Result<Thread, Error> {
        let mut state = c::Thread::default();
        // SAFETY: the state is there until the call returns.
        checked(unsafe { c::lwcrun_step(self.number, thread, &mut state) })?;
        Ok(state.seen())
    }

    /// How a thread is.
    pub fn thread(&self, thread: u32) -> Result<Thread, Error> {
        let mut state = c::Thread::default();
        // SAFETY: the state is there until the call returns.
        checked(unsafe { c::lwcrun_thread(self.number, thread, &mut state) })?;
        Ok(state.seen())
    }

    /// The size of the run.
    pub fn totals(&self) -> Result<Totals, Error> {
        let mut totals = c::Totals::default();
        // SAFETY: the totals are there until the call returns.
        checked(unsafe { c::lwcrun_totals(self.number, &mut totals) })?;
        let c::Totals {
            threads,
            steps,
            work,
            contexts,
            frames,
            peak,
        } = totals;
        Ok(Totals {
            threads,
            steps,
            work,
            contexts,
            frames,
            peak,
        })
    }

    /// The bytes of a page of a context.
    pub fn page(&self, context: Name, page: u32) -> Result<[u8; PAGE_BYTES], Error> {
        let mut bytes = [0; PAGE_BYTES];
        // SAFETY: the array has the bytes of a page.
        checked(unsafe {
            c::lwcrun_page(
                self.number,
                context.job,
                context.k,
                page,
                bytes.as_mut_ptr(),
            )
        })?;
        Ok(bytes)
    }

    /// What a slot of a context has.
    pub fn slot(&self, context: Name, slot: u32) -> Result<Slot, Error> {
        let mut state = c::Slot::default();
        // SAFETY: the state is there until the call returns.
        checked(unsafe { c::lwcrun_slot(self.number, context.job, context.k, slot, &mut state) })?;
        Ok(state.seen())
    }
}

impl Drop for Run {
    fn drop(&mut self) {
        // SAFETY: a number alone is passed.
        unsafe { c::lwcrun_close(self.number) };
    }
}
