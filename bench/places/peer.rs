//! The work of `bench_pool places` with a `Vec` of an enum of 40 bytes.
use std::collections::VecDeque;
use std::env;
use std::hint::black_box;

const SHORT: i64 = 1000;
const LONG: i64 = 10_000_000;

#[path = "../value.rs"]
mod value;
use value::Val;

fn replace_often(mut v: Vec<Val>, steps: i64) -> Vec<Val> {
    for i in 0..steps {
        let place = black_box(1);
        v[place] = Val::Int(i);
    }
    v
}

fn change_ends(mut v: Vec<Val>, steps: i64) -> Vec<Val> {
    for i in 0..steps {
        v.push(Val::Int(black_box(i)));
        black_box(v.pop());
    }
    v
}

fn change_front(v: Vec<Val>, steps: i64) -> Vec<Val> {
    let mut q = VecDeque::from(v);
    for i in 0..steps {
        q.push_front(Val::Int(black_box(i)));
        black_box(q.pop_front());
    }
    Vec::from(q)
}

fn main() {
    assert!(std::mem::size_of::<Val>() == 40);
    let (mut ends, mut front, mut count, mut steps) = (false, false, 4, SHORT);
    for arg in env::args() {
        match arg.as_str() {
            "ends" => ends = true,
            "front" => front = true,
            "some" => count = 4096,
            "many" => count = 4_000_000,
            "long" => steps = LONG,
            _ => {}
        }
    }
    let array = vec![Val::Int(7); count];
    let v = if ends {
        change_ends(array, steps)
    } else if front {
        change_front(array, steps)
    } else {
        replace_often(array, steps)
    };
    let second = match v[1] {
        Val::Int(n) => n,
        _ => 0,
    };
    println!("{steps} steps: {second} {}", v.len());
}
