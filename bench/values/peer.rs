//! The copy of `bench_pool copy-long` with a `Vec` of an enum of 40 bytes that is `Clone` and not `Copy`.
use std::hint::black_box;
use std::time::Instant;

const MANY: u32 = 1_000_000;
const TIMES: u32 = 10;

#[path = "../value.rs"]
mod value;
use value::Val;

fn integer_at(place: u32) -> i64 {
    i64::from(place.wrapping_mul(2_654_435_761)) - 2_147_483_648
}

fn main() {
    assert!(std::mem::size_of::<Val>() == 40);
    let array: Vec<Val> = (0..MANY).map(|i| Val::Int(integer_at(black_box(i)))).collect();
    let mut least = u128::MAX;
    for _ in 0..TIMES {
        let begin = Instant::now();
        let copied = black_box(black_box(&array).clone());
        let taken = begin.elapsed().as_nanos();
        let mut sum: i64 = 0;
        for item in &copied {
            if let Val::Int(n) = item {
                sum = sum.wrapping_add(*n);
            }
        }
        println!("{} elements, sum {sum}", copied.len());
        if taken < least {
            least = taken;
        }
    }
    eprintln!("{least}");
}
