//! The tables of logarithm and power that are lent. The patched places of the published code read
//! their entries here.
#![warn(unused, clippy::all)]

use super::logarithm;
use crate::gain::TABLE;
use std::cell::Cell;

/// Logarithm, power.
pub type Pair = [[i16; TABLE]; 2];

thread_local! {
    static CURRENT: Cell<Pair> = const { Cell::new([[0; TABLE]; 2]) };
}

pub fn set(tables: &Pair) {
    CURRENT.set(*tables);
}

pub fn log(index: usize) -> i32 {
    i32::from(CURRENT.get()[0][index])
}

pub fn pow(index: usize) -> i32 {
    i32::from(CURRENT.get()[1][index])
}

/// The source's own, which are the standard's.
pub fn standard() -> Pair {
    [logarithm::LOG2_TABLE, logarithm::POW2_TABLE].map(|table| table.map(|entry| entry as i16))
}
