//! Whole rows of cells, by the loops that `cell_bits` has.

use crate::SplitMix64;

#[inline(never)]
fn is_above(new: &[u8], old: &[u8]) -> bool {
    let mut lost = 0;
    for (new, old) in new.iter().zip(old) {
        lost |= old & !new;
    }
    lost == 0
}

#[inline(never)]
fn is_blank(row: &[u8]) -> bool {
    let mut all = 0;
    for byte in row {
        all |= *byte;
    }
    all == 0
}

#[inline(never)]
fn charged_cells(row: &[u8]) -> u64 {
    row.iter().map(|byte| byte.count_ones() as u64).sum()
}

fn random_row(bytes: usize) -> Vec<u8> {
    let mut random = SplitMix64(1);
    (0..bytes).map(|_| random.next_word() as u8).collect()
}

pub fn above(bytes: usize, rounds: usize) -> u64 {
    let old = random_row(bytes);
    let mut new = random_row(bytes);
    let mut sum = 0;
    for round in 0..rounds {
        let at = round % bytes;
        new[at] = old[at] | 1;
        sum += is_above(&new, &old) as u64;
    }
    sum
}

pub fn blank(bytes: usize, rounds: usize) -> u64 {
    let mut row = vec![0; bytes];
    let mut sum = 0;
    for round in 0..rounds {
        let at = round % bytes;
        row[at] = (round % 3 / 2) as u8;
        sum += is_blank(&row) as u64;
        row[at] = 0;
    }
    sum
}

pub fn charged(bytes: usize, rounds: usize) -> u64 {
    let mut row = random_row(bytes);
    let mut sum = 0;
    for round in 0..rounds {
        let at = round % bytes;
        row[at] = row[at].wrapping_add(1);
        sum += charged_cells(&row);
    }
    sum
}
