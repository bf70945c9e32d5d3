//! What `bench/programs/queue_speed` does with numbers, over upstream's `crossbeam-queue` in plain Rust: the same arguments, the same
//! waits (`Backoff`, then sleeps of a millisecond; or `Backoff` alone), the same line printed.
use crossbeam_queue::ArrayQueue;
use crossbeam_utils::Backoff;
use std::process::ExitCode;
use std::time::Duration;
use std::{env, thread};

/// What a thread does while the queue is full or empty.
#[derive(Clone, Copy)]
enum Waiting {
    /// It spins, then yields, then sleeps for a millisecond at a time.
    Sleep,
    /// It spins, and then yields.
    Yield,
}

fn wait(backoff: &Backoff, waiting: Waiting) {
    match waiting {
        Waiting::Sleep if backoff.is_completed() => thread::sleep(Duration::from_millis(1)),
        _ => backoff.snooze(),
    }
}

fn push_all(queue: &ArrayQueue<u64>, count: u64, waiting: Waiting) {
    for item in 0..count {
        let backoff = Backoff::new();
        while queue.push(item).is_err() {
            wait(&backoff, waiting);
        }
    }
}

fn pop_all(queue: &ArrayQueue<u64>, count: u64, waiting: Waiting) -> u64 {
    let mut in_place = 0;
    for item in 0..count {
        let backoff = Backoff::new();
        let popped = loop {
            if let Some(popped) = queue.pop() {
                break popped;
            }
            wait(&backoff, waiting);
        };
        if popped == item {
            in_place += 1;
        }
    }
    in_place
}

fn pass_between(queue: &ArrayQueue<u64>, count: u64, waiting: Waiting) -> u64 {
    thread::scope(|scope| {
        scope.spawn(|| push_all(queue, count, waiting));
        pop_all(queue, count, waiting)
    })
}

fn pass_alone(queue: &ArrayQueue<u64>, count: u64) -> u64 {
    let mut in_place = 0;
    for item in 0..count {
        if queue.push(item).is_ok() && queue.pop() == Some(item) {
            in_place += 1;
        }
    }
    in_place
}

/// Lets a thread wait for so many seconds for one number.
fn wait_between(queue: &ArrayQueue<u64>, seconds: u64) -> u64 {
    thread::scope(|scope| {
        scope.spawn(|| {
            thread::sleep(Duration::from_secs(seconds));
            push_all(queue, 1, Waiting::Sleep);
        });
        pop_all(queue, 1, Waiting::Sleep)
    })
}

fn run() -> Option<()> {
    let arguments: Vec<String> = env::args().skip(1).collect();
    let [name, count, capacity] = arguments.as_slice() else {
        return None;
    };
    let count = count.parse().ok()?;
    let queue = ArrayQueue::new(capacity.parse().ok().filter(|capacity| *capacity > 0)?);
    let out = match name.as_str() {
        "sleep" => pass_between(&queue, count, Waiting::Sleep),
        "yield" => pass_between(&queue, count, Waiting::Yield),
        "alone" => pass_alone(&queue, count),
        "idle" => wait_between(&queue, count),
        _ => return None,
    };
    println!("{name}: {out} items");
    Some(())
}

fn main() -> ExitCode {
    match run() {
        Some(()) => ExitCode::SUCCESS,
        None => ExitCode::from(2),
    }
}
