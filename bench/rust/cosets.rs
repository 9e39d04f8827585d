//! `Coset<128, 288>` by plain elimination: each call offers the uncharged columns in order until as
//! many are taken as a message has bits. It charges the same cells, since there is one basis solution.

use crate::SplitMix64;

const CELLS: usize = 288;
const WORDS: usize = 5;

struct Basis {
    rows: [u128; 128],
    sets: [u128; 128],
    tags: [usize; 128],
    taken: usize,
}

impl Basis {
    fn new() -> Basis {
        Basis {
            rows: [0; 128],
            sets: [0; 128],
            tags: [0; 128],
            taken: 0,
        }
    }

    /// What is left of a vector, and which taken ones were added to it.
    fn reduce(&self, vector: u128) -> (u128, u128) {
        let (mut rest, mut set) = (vector, 0);
        while rest != 0 {
            let top = 127 - rest.leading_zeros() as usize;
            if self.rows[top] == 0 {
                break;
            }
            rest ^= self.rows[top];
            set ^= self.sets[top];
        }
        (rest, set)
    }

    fn offer(&mut self, vector: u128, tag: usize) {
        let (rest, set) = self.reduce(vector);
        if rest != 0 {
            let top = 127 - rest.leading_zeros() as usize;
            self.rows[top] = rest;
            self.sets[top] = set ^ 1 << self.taken;
            self.tags[self.taken] = tag;
            self.taken += 1;
        }
    }
}

fn is_charged(row: &[u64], cell: usize) -> bool {
    row[cell / 64] >> (cell % 64) & 1 == 1
}

fn columns() -> Vec<u128> {
    let mut random = SplitMix64(1);
    let mut column = || random.next_word() as u128 | (random.next_word() as u128) << 64;
    (0..CELLS).map(|_| column()).collect()
}

#[inline(never)]
fn syndrome(columns: &[u128], row: &[u64]) -> u128 {
    let mut sum = 0;
    for (cell, column) in columns.iter().enumerate() {
        if is_charged(row, cell) {
            sum ^= column;
        }
    }
    sum
}

#[inline(never)]
fn over_words(columns: &[u128], old: &[u64], message: u128, out: &mut [u64]) -> bool {
    let target = message ^ syndrome(columns, old);
    let mut basis = Basis::new();
    for cell in 0..CELLS {
        if !is_charged(old, cell) {
            basis.offer(columns[cell], cell);
            if basis.taken == 128 {
                break;
            }
        }
    }
    let (rest, mut set) = basis.reduce(target);
    if rest != 0 {
        return false;
    }
    out.copy_from_slice(old);
    while set != 0 {
        let cell = basis.tags[set.trailing_zeros() as usize];
        out[cell / 64] |= 1 << (cell % 64);
        set &= set - 1;
    }
    true
}

#[inline(never)]
fn charge_at_random(random: &mut SplitMix64, one_in: u64, cells: &mut [bool], row: &mut [u64]) {
    let limit = u64::MAX / one_in;
    for cell in cells.iter_mut() {
        *cell = random.next_word() < limit;
    }
    row.fill(0);
    for (cell, charged) in cells.iter().enumerate() {
        if *charged {
            row[cell / 64] |= 1 << (cell % 64);
        }
    }
}

pub fn cells(one_in: u64, rounds: usize) -> u64 {
    let mut random = SplitMix64(1);
    let (mut cells, mut row) = ([false; CELLS], [0; WORDS]);
    let mut sum: u64 = 0;
    for _ in 0..rounds {
        charge_at_random(&mut random, one_in, &mut cells, &mut row);
        sum = sum.wrapping_add(row[0]);
    }
    sum
}

pub fn over(one_in: u64, rounds: usize) -> u64 {
    let columns = columns();
    let mut halves = [0; 2];
    charge_at_random(&mut SplitMix64(2), 2, &mut [false; 128], &mut halves);
    let message = halves[0] as u128 | (halves[1] as u128) << 64;
    let mut random = SplitMix64(1);
    let (mut cells, mut row, mut out) = ([false; CELLS], [0; WORDS], [0; WORDS]);
    let mut sum: u64 = 0;
    for _ in 0..rounds {
        charge_at_random(&mut random, one_in, &mut cells, &mut row);
        if over_words(&columns, &row, message, &mut out) {
            sum = sum.wrapping_add(out[0]);
        }
    }
    sum
}

pub fn decode(one_in: u64, rounds: usize) -> u64 {
    let columns = columns();
    let mut random = SplitMix64(1);
    let (mut cells, mut row) = ([false; CELLS], [0; WORDS]);
    let mut sum: u64 = 0;
    for _ in 0..rounds {
        charge_at_random(&mut random, one_in, &mut cells, &mut row);
        sum = sum.wrapping_add(syndrome(&columns, &row) as u64);
    }
    sum
}
