//! Times the kernel, straightforward Rust and a plain copy of the result on the same cases, side by side in one run.

mod agree;
mod buffer;
mod cases;
mod kernel;
mod large;
mod plain;
mod plot;
mod table;

use buffer::Buffer;
use cases::Case;
use kernel::{Answer, Call, MAX_COUNT};
use std::hint::black_box;
use std::time::{Duration, Instant};

/// How long a batch of calls takes, about, and all batches of a case in one round.
const BATCH: Duration = Duration::from_micros(40);
const CASE: Duration = Duration::from_millis(100);
/// Rounds over all cases, so that a slow moment of the machine spoils no case.
const ROUNDS: usize = 8;
const RANDOM_CALLS: usize = 200_000;
const LARGE_CALLS: usize = 5_000;

/// Nanoseconds a call, the best of many. NumPy's come from bench/numpy_times.py, if at all.
pub struct Times {
    pub count: usize,
    pub kernel: f64,
    pub rust: f64,
    pub copy: f64,
    pub numpy: Option<f64>,
}

/// bench [PLOT [NUMPY]]: holds the kernel and the straightforward version to each other. With PLOT it times them too: the tables go to
/// standard output, with the times that NUMPY has, and the plot to PLOT.
fn main() {
    let cases = cases::all();
    agree::on_random_calls(RANDOM_CALLS);
    agree::on_large_calls(LARGE_CALLS);
    let counts: Vec<usize> = cases.iter().map(agree::on_case).collect();
    agree::on_a_small_stack(&cases);
    let mut words = std::env::args().skip(1);
    let Some(plot) = words.next() else {
        let stack = agree::SMALL_STACK / 1024;
        println!("{RANDOM_CALLS} small and {LARGE_CALLS} large random calls and {} cases answered alike, on a stack of {stack} KB where no chains are kept", cases.len());
        return;
    };
    let numpy = words.next().map_or(String::new(), |path| std::fs::read_to_string(path).expect("NumPy's times"));
    let none = f64::INFINITY;
    let mut timed = Vec::new();
    for (case, count) in cases.into_iter().zip(counts) {
        let numpy = numpy_time(&case, &numpy);
        timed.push((case, Times { count, kernel: none, rust: none, copy: none, numpy }));
    }
    for _ in 0..ROUNDS {
        for (case, times) in &mut timed {
            time(&case.call, times);
        }
    }
    println!("{}", table::goals(&timed));
    println!("{}", table::cases(&timed));
    std::fs::write(plot, plot::svg(&timed)).expect("the plot can be written");
}

/// A line has the case's names and a time.
fn numpy_time(case: &Case, numpy: &str) -> Option<f64> {
    let start = format!("{}\t{}\t{}\t", case.primitive, case.shape, case.what);
    numpy.lines().find_map(|line| line.strip_prefix(&start)?.parse().ok())
}

/// The three in turn, so that what else the machine does falls on all of them.
fn time(call: &Call, times: &mut Times) {
    let mut out = Buffer::new(&[0; MAX_COUNT], 3);
    kernel::answer(call, &mut out);
    let count = times.count;
    let result = Buffer::new(&out[..count], 2);
    let answer = |f: fn(&Call, &mut [i32]) -> Answer, out: &mut [i32]| {
        black_box(f(black_box(call), black_box(out)));
    };
    let mut works: [(&mut f64, &mut dyn FnMut(&mut [i32])); 3] = [
        (&mut times.kernel, &mut |out| answer(kernel::answer, out)),
        (&mut times.rust, &mut |out| answer(plain::answer, out)),
        (&mut times.copy, &mut |out| black_box(&mut out[..count]).copy_from_slice(black_box(&result))),
    ];
    let calls = works.each_mut().map(|(_, work)| calls_in_a_batch(work, &mut out));
    let start = Instant::now();
    while start.elapsed() < CASE {
        for ((best, work), &calls) in works.iter_mut().zip(&calls) {
            **best = best.min(batch(work, &mut out, calls));
        }
    }
}

fn calls_in_a_batch(work: &mut dyn FnMut(&mut [i32]), out: &mut [i32]) -> u32 {
    let mut calls = 1;
    while batch(work, out, calls) * f64::from(calls) < BATCH.as_nanos() as f64 {
        calls *= 2;
    }
    calls
}

/// Nanoseconds a call.
fn batch(work: &mut dyn FnMut(&mut [i32]), out: &mut [i32], calls: u32) -> f64 {
    let start = Instant::now();
    for _ in 0..calls {
        work(out);
    }
    start.elapsed().as_nanos() as f64 / f64::from(calls)
}
