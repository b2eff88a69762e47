/// A value of 40 bytes, as `flow_value::Val` is: what peers in Rust are timed with.
#[allow(dead_code)]
#[derive(Clone)]
pub enum Val {
    Err(u8),
    Int(i64),
    Bool(bool),
    Char(u8),
    Null,
    Arr(i64, Vec<Val>),
    Rec(Vec<Val>),
    Uni(u32, Box<Val>),
    Stream(Vec<Val>, u64),
}
