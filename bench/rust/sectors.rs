//! Sectors of 512 bytes in a scheme, by the unverified kernels of `codes`: 64 random sectors, and 64 units whose pages have
//! first writes of random sectors. A round goes once over all of them.

use crate::SplitMix64;
use crate::codes::{CosetScheme, Ham, Rs, Scheme};

/// How many sectors and how many units.
const COUNT: usize = 64;

/// Bytes behind each row that a kernel may read or write with a whole vector.
const SLACK: usize = 16;

fn fill_at_random(random: &mut SplitMix64, row: &mut [u8]) {
    for byte in row {
        *byte = (random.next_word() % 256) as u8;
    }
}

/// Rows of so many random bytes, each with its slack.
fn random_rows(random: &mut SplitMix64, bytes: usize) -> Vec<Vec<u8>> {
    let mut rows = vec![vec![0; bytes + SLACK]; COUNT];
    for row in &mut rows {
        fill_at_random(random, &mut row[..bytes]);
    }
    rows
}

/// Units each page of which has the first write of a random sector.
fn written_units<S: Scheme>(random: &mut SplitMix64, scheme: &S) -> Vec<Vec<u8>> {
    let mut units = vec![vec![0; S::PAGE * S::SPAN + SLACK]; COUNT];
    let mut sector = vec![0; S::SECTOR + SLACK];
    for unit in &mut units {
        for page in 0..S::SPAN {
            fill_at_random(random, &mut sector[..S::SECTOR]);
            scheme.first(&sector, &mut unit[page * S::PAGE..]);
        }
    }
    units
}

fn first_rounds<S: Scheme>(scheme: &S, sectors: &[Vec<u8>], rounds: usize) -> u64 {
    let mut page = vec![0; S::PAGE + SLACK];
    let mut sum = 0u64;
    for round in 0..rounds {
        for sector in sectors {
            scheme.first(sector, &mut page);
            sum = sum.wrapping_add(u64::from(page[round % S::MAIN]));
        }
    }
    sum
}

/// The byte at this place of the main bytes of a unit's pages, one page after the other.
fn main_byte<S: Scheme>(unit: &[u8], place: usize) -> u64 {
    u64::from(unit[place / S::MAIN * S::PAGE + place % S::MAIN])
}

fn over_rounds<S: Scheme>(scheme: &mut S, sectors: &[Vec<u8>], units: &[Vec<u8>], rounds: usize) -> u64 {
    let mut out = vec![0; S::PAGE * S::SPAN + SLACK];
    let mut sum = 0u64;
    for round in 0..rounds {
        for (sector, unit) in sectors.iter().zip(units) {
            if scheme.over(unit, sector, &mut out) {
                sum = sum.wrapping_add(main_byte::<S>(&out, round % (S::SPAN * S::MAIN)));
            }
        }
    }
    sum
}

fn read_rounds<S: Scheme>(scheme: &S, units: &[Vec<u8>], rounds: usize) -> u64 {
    let mut sector = vec![0; S::SECTOR + SLACK];
    let mut sum = 0u64;
    for round in 0..rounds {
        for unit in units {
            scheme.read_first(unit, &mut sector);
            sum = sum.wrapping_add(u64::from(sector[round % S::SECTOR]));
        }
    }
    sum
}

fn rounds_of<S: Scheme>(kernel: &str, rounds: usize) -> u64 {
    let mut scheme = S::new();
    let mut random = SplitMix64(7);
    let sectors = random_rows(&mut random, S::SECTOR);
    let units = written_units(&mut random, &scheme);
    match kernel {
        "first" => first_rounds(&scheme, &sectors, rounds),
        "second" => over_rounds(&mut scheme, &sectors, &units, rounds),
        _ => read_rounds(&scheme, &units, rounds),
    }
}

/// The rounds of one scheme of 512 bytes.
pub fn scheme_rounds(name: &str, kernel: &str, rounds: usize) -> u64 {
    match name {
        "rs512" => rounds_of::<Rs<512>>(kernel, rounds),
        "ham512" => rounds_of::<Ham<512>>(kernel, rounds),
        "coset512" => rounds_of::<CosetScheme<512, false>>(kernel, rounds),
        "flip512" => rounds_of::<CosetScheme<512, true>>(kernel, rounds),
        _ => panic!("no scheme {name}"),
    }
}
