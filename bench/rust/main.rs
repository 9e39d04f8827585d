//! The kernels of `crates/bench_kernels` in plain Rust, on the same rows: both print the same line for
//! the same words, so that a time is only ever compared with that of the same work.

#[allow(dead_code, unused_assignments)]
mod bits;
#[allow(dead_code, unused_assignments)]
mod codes;
mod cosets;
mod rows;
mod scripts;
mod sectors;

/// SplitMix64 (Steele, Lea and Flood, 2014).
pub struct SplitMix64(pub u64);

impl SplitMix64 {
    pub fn next_word(&mut self) -> u64 {
        self.0 = self.0.wrapping_add(0x9e37_79b9_7f4a_7c15);
        let mut word = self.0;
        word = (word ^ word >> 30).wrapping_mul(0xbf58_476d_1ce4_e5b9);
        word = (word ^ word >> 27).wrapping_mul(0x94d0_49bb_1331_11eb);
        word ^ word >> 31
    }
}

/// The checksum of so many rounds of a kernel over rows, chunks or lines of a size.
fn checksum(kernel: &str, size: usize, rounds: usize) -> u64 {
    match kernel {
        "above" => rows::above(size, rounds),
        "blank" => rows::blank(size, rounds),
        "charged" => rows::charged(size, rounds),
        "cells" => cosets::cells(size as u64, rounds),
        "over" => cosets::over(size as u64, rounds),
        "decode" => cosets::decode(size as u64, rounds),
        "parse" => scripts::parsed(size, rounds),
        _ => panic!("no kernel {kernel}"),
    }
}

fn main() {
    let words: Vec<String> = std::env::args().skip(1).collect();
    let kernel = words[0].as_str();
    let rounds: usize = words[2].parse().unwrap();
    let sum = match kernel {
        "script" => return print!("{}", scripts::write_lines(words[1].parse().unwrap())),
        "first" | "second" | "read" => sectors::scheme_rounds(&words[1], kernel, rounds),
        _ => checksum(kernel, words[1].parse().unwrap(), rounds),
    };
    println!("{kernel} {sum}");
}
