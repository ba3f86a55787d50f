//! Serves of a guest, and runs that are made step by step.

use lwcrun::{Name, Run, Settings, Slot, Status, ThreadStatus, assemble, carry_out};

/// A guest that stores 7 at the start of its page, and ends.
const STORING: &str = ".entry 0\n.page 0 -\nLI r1, 7\nSTW r1, r0, 0\nHALT\n";

const FIRST: Name = Name { job: 0, k: 0 };

fn few(workers: u32) -> Settings {
    Settings {
        frames: 4,
        budget: 20,
        workers,
    }
}

/// The lines of replies in the replay of a serve by one worker.
fn replies_of(image: &[u8], requests: &[u8]) -> Vec<String> {
    let steps = "0".repeat(400);
    let text = carry_out(
        &["replay", "image", "steps", "requests", "--workers", "1"],
        &[
            ("image", image),
            ("steps", steps.as_bytes()),
            ("requests", requests),
        ],
    )
    .expect("the serve is replayed");
    let text = String::from_utf8(text).expect("a report is text");
    text.lines()
        .filter(|line| line.starts_with("reply "))
        .map(String::from)
        .collect()
}

#[test]
fn each_request_gets_a_fresh_home() {
    let source = include_str!("../../../guests/counter_handler.s");
    let image = assemble(source).expect("the guest is assembled");
    assert_eq!(image, include_bytes!("../../../guests/counter_handler.lwc"));
    assert_eq!(
        replies_of(
            &image,
            include_bytes!("../../../guests/counter_handler.requests")
        ),
        [
            "reply 0 done 0 01",
            "reply 1 done 0 01",
            "reply 2 fault 2 -",
            "reply 3 done 0 01"
        ]
    );
}

#[test]
fn a_run_is_looked_at_behind_each_step() {
    let image = assemble(STORING).expect("the guest is assembled");
    let mut run = Run::open(&image, b"", few(0)).expect("the run is opened");
    assert_eq!(run.page(FIRST, 0).unwrap()[0], 0);
    let thread = run.step(0).unwrap();
    assert_eq!(
        (thread.status, thread.registers[1], thread.context),
        (ThreadStatus::Running, 7, FIRST)
    );
    assert_eq!(run.page(FIRST, 0).unwrap()[..2], [7, 0]);
    assert_eq!(run.step(0).unwrap().status, ThreadStatus::Done(0));
    assert!(run.step(0).unwrap().has_ended());
    let totals = run.totals().unwrap();
    assert_eq!(
        (totals.steps, totals.frames, totals.contexts, totals.work),
        (2, 1, 1, 0)
    );
    assert_eq!(run.slot(FIRST, 1).unwrap(), Slot::Console);
    assert_eq!(run.slot(FIRST, 2).unwrap(), Slot::Empty);
}

#[test]
fn a_worker_of_a_serve_is_stepped_through_its_request() {
    let image = include_bytes!("../../../guests/counter_handler.lwc");
    let mut run = Run::open(image, b"00\n", few(1)).expect("the serve is opened");
    assert_eq!(run.thread(0).unwrap().status, ThreadStatus::Idle);
    let thread = run.step(0).unwrap();
    assert_eq!(
        thread.context.job, 1,
        "the request is served in a context of its own job"
    );
    assert_eq!(
        run.slot(thread.context, 0).unwrap(),
        Slot::Request { request: 0, at: 0 }
    );
    assert_eq!(
        run.slot(thread.context, 1).unwrap(),
        Slot::Reply { request: 0 }
    );
}

#[test]
fn errors_have_the_status_and_the_message_of_the_program() {
    let error = carry_out(&["dis", "image"], &[]).unwrap_err();
    assert_eq!(
        (error.status, error.message.as_str()),
        (Status::CannotRead, "lwcrun: cannot read image\n")
    );
    let error = carry_out(&["gen", "40"], &[]).unwrap_err();
    assert_eq!(error.status, Status::NeedsThreads);
    let error = carry_out(&["dis", "image"], &[("image", b"LWC9")]).unwrap_err();
    assert_eq!(error.status, Status::ImageRefused);
    assert_eq!(
        Run::open(b"LWC9", b"", few(0)).unwrap_err().status,
        Status::ImageRefused
    );
    let image = assemble(STORING).expect("the guest is assembled");
    assert_eq!(
        Run::open(&image, b"", few(17)).unwrap_err().status,
        Status::BadSettings
    );
    let mut run = Run::open(&image, b"", few(0)).expect("the run is opened");
    assert_eq!(run.step(1).unwrap_err().status, Status::BadStep);
    assert_eq!(run.page(FIRST, 1).unwrap_err().status, Status::Missing);
    assert_eq!(run.totals().unwrap().steps, 0);
}
