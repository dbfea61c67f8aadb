//! Times the crate's calls and its codec. `judge bench ITEM COUNT` repeats an item COUNT times and
//! prints the nanoseconds of one repetition and a sum over what came out. The sum does not depend on
//! time: the program `test_bench` prints the same for the same item and count, or the work was not the same.
//!
//! The queues are emptied outside the timed part.

mod calls;
mod codec;
mod ends;
mod exchange;
mod timing;

pub fn run(item: &str, count: u32) -> Result<(), String> {
    match item {
        "read-42" => codec::read(count, 2, 1),
        "write-42" => codec::write(count, 2, 1),
        "read-115" => codec::read(count, 4, 64),
        "write-115" => codec::write(count, 4, 64),
        "input-2x1" => calls::input::<ends::Small>(count),
        "input-4x16" => calls::input::<ends::Large>(count),
        "send-input" => calls::send_input(count),
        "input-ack" => calls::input_ack(count),
        "keep-alive" => calls::keep_alive(count),
        "act" => calls::act(count),
        "exchange" => exchange::run(count),
        _ => Err(format!("no such item: {item}")),
    }
}
