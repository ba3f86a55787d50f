//! Serves the requests of a guest and prints the replies, and makes a run step by step.

use lwcrun::{Error, Run, Settings, assemble, carry_out};

fn main() -> Result<(), Error> {
    let image = include_bytes!("../../../guests/counter_handler.lwc");
    let requests = include_bytes!("../../../guests/counter_handler.requests");
    let text = carry_out(
        &["replay", "image", "steps", "requests", "--workers", "1"],
        &[
            ("image", image),
            ("steps", "0".repeat(400).as_bytes()),
            ("requests", requests),
        ],
    )?;
    for line in String::from_utf8_lossy(&text)
        .lines()
        .filter(|line| line.starts_with("reply "))
    {
        println!("{line}");
    }
    let storing = assemble(".entry 0\n.page 0 -\nLI r1, 7\nSTW r1, r0, 0\nHALT\n")?;
    let mut run = Run::open(&storing, b"", Settings::default())?;
    loop {
        let thread = run.step(0)?;
        println!(
            "step {}: {:?}, r1 is {}",
            run.totals()?.steps,
            thread.status,
            thread.registers[1]
        );
        if thread.has_ended() {
            return Ok(());
        }
    }
}
