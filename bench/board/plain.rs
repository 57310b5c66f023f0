//! The yardstick of the board's benchmark in ordinary Rust: a lock with an empty body, and a shared snapshot under a
//! read-write lock. The words are those of `bench board`.
use std::hint::black_box;
use std::process::ExitCode;
use std::sync::{Arc, Mutex, RwLock};
use std::thread;

fn turns(threads: usize, count: u32) {
    let counter = Mutex::new(0u64);
    thread::scope(|scope| {
        for _ in 0..threads {
            scope.spawn(|| {
                for _ in 0..count {
                    black_box(&mut *counter.lock().unwrap());
                }
            });
        }
    });
}

fn looks(count: u32) {
    let mail: RwLock<Arc<str>> = RwLock::new(Arc::from("snapshot"));
    for _ in 0..count {
        let copy = Arc::clone(&*mail.read().unwrap());
        drop(black_box(copy));
    }
}

fn main() -> ExitCode {
    let words: Vec<String> = std::env::args().skip(1).collect();
    let words: Vec<&str> = words.iter().map(String::as_str).collect();
    match words[..] {
        ["turns", threads, count] => turns(threads.parse().unwrap(), count.parse().unwrap()),
        ["looks", count] => looks(count.parse().unwrap()),
        _ => return ExitCode::from(2),
    }
    ExitCode::SUCCESS
}
