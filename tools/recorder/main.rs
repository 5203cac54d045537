//! Records calls on the Rust crate's maps and sets, in the language that `crates/micromap_replay/src/main.rt` explains: prints
//! each call, a tab and the reply. Each run records the same.

mod choose;
mod perform;
mod words;

use choose::{Chooser, CASES};
use words::list;

const SEED: u64 = 1;
const LINES: usize = 10_000;
/// The last line, which has a word too many. It has no reply, since the program is to stop there.
const NO_CALL: &str = "len 1";

fn main() {
    let mut chooser = Chooser::new(SEED);
    let mut left = LINES;
    for (header, length, new) in CASES.iter().cycle() {
        let mut subject = new();
        chooser.begin(header);
        for step in 0..=*length {
            if left == 0 {
                return println!("{NO_CALL}");
            }
            let (call, answer) = if step == 0 {
                (header.to_string(), "ok".into())
            } else {
                let call = chooser.call(&subject.contents());
                let answer = subject.answer(&call.split(' ').collect::<Vec<_>>());
                (call, answer)
            };
            let contents: Vec<String> = subject.contents().iter().map(|it| list(it)).collect();
            println!("{call}\t{answer} | {}", contents.join(" | "));
            left -= 1;
        }
    }
}
