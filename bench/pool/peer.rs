//! The work of `bench_pool pool` with `Box`, `Arc` and `Vec`, and values of 40 bytes.
use std::env;
use std::hint::black_box;
use std::sync::Arc;

const SHORT: u64 = 1000;
const LONG: u64 = 4_000_000;
const PLACES: usize = 1_000_000;

#[path = "../value.rs"]
mod value;
use value::Val;

fn number_of(value: &Val) -> u64 {
    match value {
        Val::Int(n) => *n as u64,
        _ => 0,
    }
}

fn put_often(steps: u64) -> u64 {
    let mut sum = 0u64;
    for i in 0..steps {
        let place = black_box(Box::new(Val::Int(i as i64)));
        sum = sum.wrapping_add(number_of(&place));
    }
    sum
}

fn lend_often(steps: u64) -> u64 {
    let owner = black_box(Arc::new(Val::Int(3)));
    let mut sum = 0u64;
    for _ in 0..steps {
        let lease = black_box(Arc::clone(&owner));
        sum = sum.wrapping_add(number_of(&lease));
    }
    sum
}

fn build_often(arrays: u64) -> u64 {
    for _ in 0..arrays {
        black_box(Vec::<Val>::with_capacity(PLACES));
    }
    arrays
}

fn fill_often(arrays: u64) -> u64 {
    for _ in 0..arrays {
        let mut array = Vec::with_capacity(PLACES);
        for _ in 0..PLACES {
            array.push(Val::Null);
        }
        let mut array = black_box(array);
        for i in 0..PLACES {
            array[i] = Val::Int(i as i64);
        }
        black_box(array);
    }
    arrays
}

fn push_often(arrays: u64) -> u64 {
    for _ in 0..arrays {
        let mut array = black_box(Vec::with_capacity(PLACES));
        for i in 0..PLACES {
            array.push(Val::Int(i as i64));
        }
        black_box(array);
    }
    arrays
}

fn main() {
    let mut work = "put".to_string();
    let mut steps = SHORT;
    for arg in env::args() {
        match arg.as_str() {
            "lend" | "room" | "write" | "push" => work = arg,
            "long" => steps = LONG,
            _ => {}
        }
    }
    let sum = match work.as_str() {
        "lend" => lend_often(steps),
        "room" => build_often(steps / 400),
        "write" => fill_often(steps / 400_000),
        "push" => push_often(steps / 400_000),
        _ => put_often(steps),
    };
    println!("{steps} steps: {sum}");
}
