//! Long valid traces in the manner of an automotive recorder: a small system of
//! cores, tasks, interrupt routines, runnables, semaphores, signals and events
//! is run by chance, and each step is written down as document 000 has it.
//!
//! Processes are activated throughout, run, end and are activated again, and in
//! each life call their runnables, which start and end. Of each process and each
//! runnable one instance lives at most, so that 256 of the 1,024 that a judge has
//! room for are enough, however long the trace is.

mod activating;
mod clock;
mod line_writer;
mod naming;
mod plan;
mod random;
mod running;
mod scheduling;
mod semaphores;
mod world;

pub use naming::Naming;
pub use plan::{Plan, Size};

use std::io::{self, Write};

use line_writer::LineWriter;
use world::World;

/// Bytes that are gathered before they are written.
const PORTION: usize = 64 * 1024;

/// Writes a trace of the planned size.
pub fn make_trace(plan: &Plan, mut output: impl Write) -> io::Result<()> {
    let mut world = World::new(plan);
    world.write_header();
    world.activate_all();
    while !is_long_enough(plan.size, &world.lines) {
        // before a step, so that no line of the last one is written yet
        if world.lines.text().len() >= PORTION {
            output.write_all(world.lines.text())?;
            world.lines.clear();
        }
        world.step();
    }
    if let Size::Lines(lines) = plan.size {
        world.lines.cut_to(lines);
    }
    output.write_all(world.lines.text())?;
    output.flush()
}

fn is_long_enough(size: Size, lines: &LineWriter) -> bool {
    match size {
        Size::Bytes(bytes) => lines.bytes() >= bytes,
        Size::Lines(count) => lines.lines() >= count,
    }
}
