//! Four threads add to one number, each by a caller of its own.
use clof::{Kind, NotMade};
use std::thread::scope;

const THREADS: usize = 4;
const HOLDS: u64 = 100_000;

fn main() -> Result<(), NotMade> {
    let mut callers = clof::callers(Kind::Mcs, 0_u64, THREADS)?;
    scope(|scope| {
        for caller in &mut callers {
            scope.spawn(move || {
                for _ in 0..HOLDS {
                    *caller.lock() += 1;
                }
            });
        }
    });
    println!("{}", *callers[0].lock());
    Ok(())
}
