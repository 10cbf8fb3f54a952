//! What calls cost, the proved index beside the ordinary one.
//!
//!     benchmark [WORDS]               a table of times and ratios, of the rows that have these words
//!     benchmark rows [WORDS]          the rows alone: N, how often to make the call, its name
//!     benchmark count N NAME SIDE K   makes a row's call K times, for a program that counts instructions;
//!                                     SIDE is proved or ordinary

use compare::foreign::thread_time;
use compare::rows::{rows, Bench, Row};
use compare::side::{Ordinary, Proved, Side};

const ROUNDS: usize = 15;
/// About how long one round of a row takes on each side, in microseconds.
const ROUND: f64 = 20_000.0;

/// Microseconds of processor time a call: those of other programs do not count.
fn time<S: Side>(bench: &mut Bench, times: u32) -> f64 {
    let start = thread_time();
    bench.run::<S>(times);
    (thread_time() - start).as_secs_f64() * 1e6 / f64::from(times)
}

fn median(mut values: Vec<f64>) -> f64 {
    values.sort_by(f64::total_cmp);
    values[values.len() / 2]
}

fn measure(row: &Row) {
    let mut bench = Bench::new(row);
    let first = time::<Proved>(&mut bench, 1) + time::<Ordinary>(&mut bench, 1);
    let times = (2.0 * ROUND / first).clamp(1.0, 400.0) as u32;
    let round = |_| (time::<Proved>(&mut bench, times), time::<Ordinary>(&mut bench, times));
    let rounds: Vec<(f64, f64)> = (0..ROUNDS).map(round).collect();
    let middle = |part: fn(&(f64, f64)) -> f64| median(rounds.iter().map(part).collect());
    let (proved, ordinary, ratio) = (middle(|r| r.0), middle(|r| r.1), middle(|r| r.0 / r.1));
    println!("{:>4}  {:44} {proved:>9.1} us {ordinary:>9.1} us {ratio:>8.2}", row.blocks, row.name);
}

fn table(words: &str) {
    println!("{:>4}  {:44} {:>12} {:>12} {:>8}", "N", "call", "proved", "ordinary", "ratio");
    rows().iter().filter(|row| row.has(words)).for_each(measure);
}

fn list(words: &str) {
    for row in rows().iter().filter(|row| row.has(words)) {
        println!("{} {} {}", row.blocks, row.times(), row.name);
    }
}

fn count(blocks: &str, name: &str, side: &str, times: &str) {
    let rows = rows();
    let row = rows.iter().find(|row| row.blocks.to_string() == blocks && row.name == name);
    let (Some(row), Ok(times)) = (row, times.parse()) else { usage() };
    match side {
        "proved" => Bench::new(row).run::<Proved>(times),
        "ordinary" => Bench::new(row).run::<Ordinary>(times),
        _ => usage(),
    }
}

fn usage() -> ! {
    eprintln!("benchmark [WORDS], benchmark rows [WORDS] or benchmark count N NAME proved|ordinary K");
    std::process::exit(2)
}

fn main() {
    let words: Vec<String> = std::env::args().skip(1).collect();
    let words: Vec<&str> = words.iter().map(String::as_str).collect();
    match words[..] {
        [] => table(""),
        ["rows"] => list(""),
        ["rows", words] => list(words),
        ["count", blocks, name, side, times] => count(blocks, name, side, times),
        [words] => table(words),
        _ => usage(),
    }
}
