//! The loop of `bench_pool lock` over `std::sync::Mutex`.
use std::sync::Mutex;
use std::{env, thread};

const SHORT: u64 = 1000;
const LONG: u64 = 4_000_000;

fn work(sum: &Mutex<u64>, steps: u64) {
    for i in 0..steps {
        let mut sum = sum.lock().unwrap();
        std::hint::black_box(*sum);
        *sum = sum.wrapping_add(i);
    }
}

fn main() {
    let mut workers: u64 = 1;
    let mut steps = SHORT;
    for arg in env::args() {
        match arg.as_str() {
            "2" => workers = 2,
            "4" => workers = 4,
            "long" => steps = LONG,
            _ => {}
        }
    }
    let sum = Mutex::new(0);
    thread::scope(|scope| {
        for _ in 1..workers {
            scope.spawn(|| work(&sum, steps / workers));
        }
        work(&sum, steps / workers);
    });
    println!("{steps} steps by {workers}: {}", sum.into_inner().unwrap());
}
