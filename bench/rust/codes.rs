//! The codes and the schemes. A page slice has `PAGE` bytes (main and spare);
//! kernels may read past the main bytes into the spare bytes, and `first` and
//! `over` may write zeros over the first two spare bytes of their output, which
//! the caller fills afterwards.

use crate::bits::*;
use core::arch::x86_64::*;

pub trait Scheme {
    const SECTOR: usize;
    const MAIN: usize;
    const SPAN: usize;
    const G: usize;
    const PAGE: usize = Self::MAIN + 16 * Self::G;
    fn new() -> Self;
    /// First write over blank cells.
    fn first(&self, sector: &[u8], page: &mut [u8]);
    fn read_first(&self, page: &[u8], sector: &mut [u8]);
    /// `unit` and `out` are SPAN pages of PAGE bytes side by side. False is Declined,
    /// and then `out` holds any bytes.
    fn over(&mut self, unit: &[u8], sector: &[u8], out: &mut [u8]) -> bool;
    fn read_second(&self, unit: &[u8], sector: &mut [u8]);
}

// ---------------------------------------------------------------- Plain

pub struct Plain16;
impl Scheme for Plain16 {
    const SECTOR: usize = 16;
    const MAIN: usize = 16;
    const SPAN: usize = 1;
    const G: usize = 2;
    fn new() -> Self {
        Plain16
    }
    #[inline(always)]
    fn first(&self, sector: &[u8], page: &mut [u8]) {
        page[..16].copy_from_slice(&sector[..16]);
    }
    #[inline(always)]
    fn read_first(&self, page: &[u8], sector: &mut [u8]) {
        sector[..16].copy_from_slice(&page[..16]);
    }
    #[inline(always)]
    fn over(&mut self, unit: &[u8], sector: &[u8], out: &mut [u8]) -> bool {
        if (ld64(unit, 0) & !ld64(sector, 0)) | (ld64(unit, 8) & !ld64(sector, 8)) != 0 {
            return false;
        }
        out[..16].copy_from_slice(&sector[..16]);
        true
    }
    #[inline(always)]
    fn read_second(&self, unit: &[u8], sector: &mut [u8]) {
        sector[..16].copy_from_slice(&unit[..16]);
    }
}

// ---------------------------------------------------------------- Rivest-Shamir
// 16 chunks (32 message bits, 48 cells) in each 64-bit lane, two lanes per vector.

const fn rep(pat: u64, width: u32) -> i64 {
    let mut r = 0u64;
    let mut i = 0;
    while i < 48 {
        r |= pat << i;
        i += width;
    }
    (r & 0xffff_ffff_ffff) as i64
}
const A3: i64 = rep(1, 3);
const L16: i64 = 0x0000_0000_0000_ffff;
const H16: i64 = 0x0000_0000_ffff_0000;
const L8: i64 = rep(0x0000ff, 24);
const H8: i64 = rep(0x00ff00, 24);
const L4: i64 = rep(0x00f, 12);
const H4: i64 = rep(0x0f0, 12);
const L2: i64 = rep(0b000011, 6);
const H2: i64 = rep(0b001100, 6);
const M48: i64 = 0xffff_ffff_ffff;

#[inline(always)]
unsafe fn k(c: i64) -> __m128i {
    _mm_set1_epi64x(c)
}
/// 32 bits per lane to triples (m0, m1, 0).
#[inline(always)]
unsafe fn rs_expand(x: __m128i) -> __m128i {
    let x = _mm_or_si128(_mm_and_si128(x, k(L16)), _mm_slli_epi64(_mm_and_si128(x, k(H16)), 8));
    let x = _mm_or_si128(_mm_and_si128(x, k(L8)), _mm_slli_epi64(_mm_and_si128(x, k(H8)), 4));
    let x = _mm_or_si128(_mm_and_si128(x, k(L4)), _mm_slli_epi64(_mm_and_si128(x, k(H4)), 2));
    _mm_or_si128(_mm_and_si128(x, k(L2)), _mm_slli_epi64(_mm_and_si128(x, k(H2)), 1))
}
/// Triples (m0, m1, 0) to 32 bits per lane.
#[inline(always)]
unsafe fn rs_compress(x: __m128i) -> __m128i {
    let x = _mm_or_si128(_mm_and_si128(x, k(L2)), _mm_and_si128(_mm_srli_epi64(x, 1), k(H2)));
    let x = _mm_or_si128(_mm_and_si128(x, k(L4)), _mm_and_si128(_mm_srli_epi64(x, 2), k(H4)));
    let x = _mm_or_si128(_mm_and_si128(x, k(L8)), _mm_and_si128(_mm_srli_epi64(x, 4), k(H8)));
    _mm_or_si128(_mm_and_si128(x, k(L16)), _mm_and_si128(_mm_srli_epi64(x, 8), k(H16)))
}
#[inline(always)]
unsafe fn rs_load_msg(p: *const u8) -> __m128i {
    _mm_unpacklo_epi32(_mm_loadl_epi64(p as *const __m128i), _mm_setzero_si128())
}
/// Two groups of 48 cells: reads 14 bytes.
#[inline(always)]
unsafe fn rs_load_cells(p: *const u8) -> __m128i {
    let lo = _mm_loadl_epi64(p as *const __m128i);
    let hi = _mm_loadl_epi64(p.add(6) as *const __m128i);
    _mm_and_si128(_mm_unpacklo_epi64(lo, hi), k(M48))
}
/// Writes 12 bytes and two zero bytes after them.
#[inline(always)]
unsafe fn rs_store_cells(p: *mut u8, v: __m128i) {
    _mm_storel_epi64(p as *mut __m128i, v);
    _mm_storel_epi64(p.add(6) as *mut __m128i, _mm_unpackhi_epi64(v, v));
}
/// The lowest cell of each triple tells for all three.
#[inline(always)]
unsafe fn rs_spread(x: __m128i) -> __m128i {
    _mm_or_si128(x, _mm_or_si128(_mm_slli_epi64(x, 1), _mm_slli_epi64(x, 2)))
}

pub struct Rs<const B: usize>;
impl<const B: usize> Scheme for Rs<B> {
    const SECTOR: usize = B;
    const MAIN: usize = B / 2 * 3;
    const SPAN: usize = 1;
    const G: usize = 2;
    fn new() -> Self {
        Rs
    }
    #[inline(always)]
    fn first(&self, sector: &[u8], page: &mut [u8]) {
        assert!(sector.len() >= B && page.len() >= Self::PAGE);
        unsafe {
            let mut m = sector.as_ptr();
            let mut c = page.as_mut_ptr();
            for _ in 0..B / 8 {
                let x = rs_expand(rs_load_msg(m));
                // m0 = cell 0 of the triple, m1 = cell 1; a = m1 & !m0, b = m0 & !m1, c = both
                let x1 = _mm_srli_epi64(x, 1);
                let a = _mm_and_si128(_mm_andnot_si128(x, x1), k(A3));
                let b = _mm_and_si128(_mm_andnot_si128(x1, x), k(A3));
                let cc = _mm_and_si128(_mm_and_si128(x, x1), k(A3));
                let v = _mm_or_si128(a, _mm_or_si128(_mm_slli_epi64(b, 1), _mm_slli_epi64(cc, 2)));
                rs_store_cells(c, v);
                m = m.add(8);
                c = c.add(12);
            }
        }
    }
    #[inline(always)]
    fn read_first(&self, page: &[u8], sector: &mut [u8]) {
        assert!(sector.len() >= B && page.len() >= Self::PAGE);
        unsafe {
            let mut m = sector.as_mut_ptr();
            let mut c = page.as_ptr();
            for _ in 0..B / 8 {
                let w = rs_load_cells(c);
                let w1 = _mm_srli_epi64(w, 1);
                let w2 = _mm_srli_epi64(w, 2);
                let d0 = _mm_and_si128(_mm_xor_si128(w1, w2), k(A3));
                let d1 = _mm_and_si128(_mm_xor_si128(w, w2), k(A3));
                let x = rs_compress(_mm_or_si128(d0, _mm_slli_epi64(d1, 1)));
                let x = _mm_shuffle_epi32(x, 0b00_00_10_00);
                _mm_storel_epi64(m as *mut __m128i, x);
                m = m.add(8);
                c = c.add(12);
            }
        }
    }
    #[inline(always)]
    fn over(&mut self, unit: &[u8], sector: &[u8], out: &mut [u8]) -> bool {
        assert!(unit.len() >= Self::PAGE && sector.len() >= B && out.len() >= Self::PAGE);
        unsafe {
            let mut m = sector.as_ptr();
            let mut c = unit.as_ptr();
            let mut o = out.as_mut_ptr();
            let mut dec = _mm_setzero_si128();
            for _ in 0..B / 8 {
                let x = rs_expand(rs_load_msg(m));
                // f: cell x of the triple is 0 exactly where the difference is zero or is the column of x
                let xx = _mm_and_si128(_mm_xor_si128(x, _mm_srli_epi64(x, 1)), k(A3));
                let mm = _mm_or_si128(x, _mm_slli_epi64(xx, 2));
                let w = rs_load_cells(c);
                let par = _mm_and_si128(
                    _mm_xor_si128(w, _mm_xor_si128(_mm_srli_epi64(w, 1), _mm_srli_epi64(w, 2))),
                    k(A3),
                );
                let f = _mm_xor_si128(_mm_xor_si128(mm, w), rs_spread(par));
                // any of f: the difference is not zero
                let any = _mm_and_si128(_mm_or_si128(f, _mm_srli_epi64(f, 1)), k(A3));
                let s = _mm_andnot_si128(f, rs_spread(any));
                // where that one cell is charged, the two others are taken
                let h = _mm_and_si128(s, w);
                let hh = _mm_and_si128(
                    _mm_or_si128(h, _mm_or_si128(_mm_srli_epi64(h, 1), _mm_srli_epi64(h, 2))),
                    k(A3),
                );
                let two = _mm_and_si128(rs_spread(hh), f);
                dec = _mm_or_si128(dec, _mm_and_si128(two, w));
                rs_store_cells(o, _mm_or_si128(w, _mm_or_si128(s, two)));
                m = m.add(8);
                c = c.add(12);
                o = o.add(12);
            }
            _mm_movemask_epi8(_mm_cmpeq_epi8(dec, _mm_setzero_si128())) == 0xffff
        }
    }
    #[inline(always)]
    fn read_second(&self, unit: &[u8], sector: &mut [u8]) {
        self.read_first(unit, sector)
    }
}

// ---------------------------------------------------------------- Hamming

pub struct HamTables {
    /// 12 message bits to 28 cells, over blank cells.
    pub first: Vec<u32>,
    /// 14 cells to 6 message bits.
    pub dec: Vec<u8>,
    /// message * 128 + cells to the new cells, 0x80 being Declined.
    pub over: Vec<u8>,
}
pub fn ham_syndrome(cells: u8) -> u8 {
    let mut s = 0;
    for i in 0..7 {
        if cells >> i & 1 == 1 {
            s ^= i as u8 + 1;
        }
    }
    s
}
impl HamTables {
    pub fn new() -> HamTables {
        // subsets by size, then by ascending list of cell numbers
        let mut subs: Vec<(u32, Vec<u8>, u8)> = (0..128u32)
            .map(|s| {
                let list: Vec<u8> = (0..7u8).filter(|i| s >> i & 1 == 1).collect();
                (s.count_ones(), list, s as u8)
            })
            .collect();
        subs.sort();
        let syn: Vec<u8> = (0..128).map(|c| ham_syndrome(c as u8)).collect();
        let mut over = vec![0x80u8; 1024];
        for old in 0..128usize {
            for (_, _, s) in subs.iter() {
                if *s as usize & old == 0 {
                    let new = old | *s as usize;
                    let at = (syn[new] as usize) << 7 | old;
                    if over[at] == 0x80 {
                        over[at] = new as u8;
                    }
                }
            }
        }
        let mut first = vec![0u32; 4096];
        for m in 0..4096usize {
            let mut c = 0u32;
            for j in 0..4 {
                c |= (over[(m >> (3 * j) & 7) << 7] as u32) << (7 * j);
            }
            first[m] = c;
        }
        let mut dec = vec![0u8; 16384];
        for c in 0..16384usize {
            dec[c] = syn[c & 127] | syn[c >> 7] << 3;
        }
        HamTables { first, dec, over }
    }
}

pub struct Ham<const B: usize> {
    t: HamTables,
}
impl<const B: usize> Ham<B> {
    const GROUPS: usize = B / 3;
    const TAIL: usize = B % 3; // bytes
    const TAIL_CHUNKS: usize = (8 * Self::TAIL + 2) / 3;
}
impl<const B: usize> Scheme for Ham<B> {
    const SECTOR: usize = B;
    const MAIN: usize = ((8 * B + 2) / 3 * 7 + 7) / 8;
    const SPAN: usize = 1;
    const G: usize = 3;
    fn new() -> Self {
        Ham { t: HamTables::new() }
    }
    #[inline(always)]
    fn first(&self, sector: &[u8], page: &mut [u8]) {
        assert!(sector.len() >= B && page.len() >= Self::PAGE);
        let t: &[u32; 4096] = self.t.first[..].try_into().unwrap();
        let f = |m: u32| -> u64 {
            t[(m & 4095) as usize] as u64 | (t[(m >> 12 & 4095) as usize] as u64) << 28
        };
        for g in 0..Self::GROUPS {
            st64(page, 7 * g, f(ld32(sector, 3 * g)));
        }
        let mut m = 0u32;
        for j in 0..Self::TAIL {
            m |= (sector[3 * Self::GROUPS + j] as u32) << (8 * j);
        }
        let c = f(m).to_le_bytes();
        let n = Self::MAIN - 7 * Self::GROUPS;
        page[7 * Self::GROUPS..][..n].copy_from_slice(&c[..n]);
    }
    #[inline(always)]
    fn read_first(&self, page: &[u8], sector: &mut [u8]) {
        assert!(sector.len() >= B && page.len() >= Self::PAGE);
        let t: &[u8; 16384] = self.t.dec[..].try_into().unwrap();
        let f = |c: u64| -> u32 {
            t[(c & 16383) as usize] as u32
                | (t[(c >> 14 & 16383) as usize] as u32) << 6
                | (t[(c >> 28 & 16383) as usize] as u32) << 12
                | (t[(c >> 42 & 16383) as usize] as u32) << 18
        };
        for g in 0..Self::GROUPS {
            let m = f(ld64(page, 7 * g));
            st32(sector, 3 * g, m);
        }
        let m = f(ld64(page, 7 * Self::GROUPS)).to_le_bytes();
        for j in 0..Self::TAIL {
            sector[3 * Self::GROUPS + j] = m[j];
        }
    }
    #[inline(always)]
    fn over(&mut self, unit: &[u8], sector: &[u8], out: &mut [u8]) -> bool {
        assert!(unit.len() >= Self::PAGE && sector.len() >= B && out.len() >= Self::PAGE);
        let t: &[u8; 1024] = self.t.over[..].try_into().unwrap();
        for g in 0..Self::GROUPS {
            let c = ld64(unit, 7 * g);
            let m = (ld32(sector, 3 * g) as u64) << 7;
            let mut r = 0u64;
            let mut bad = 0u8;
            for j in 0..8 {
                let e = t[((c >> (7 * j) & 127) | (m >> (3 * j) & 0x380)) as usize];
                bad |= e;
                r |= (e as u64) << (7 * j);
            }
            if bad & 0x80 != 0 {
                return false;
            }
            st64(out, 7 * g, r);
        }
        let mut m = 0u64;
        for j in 0..Self::TAIL {
            m |= (sector[3 * Self::GROUPS + j] as u64) << (8 * j + 7);
        }
        let c = ld64(unit, 7 * Self::GROUPS);
        let mut r = c & !0u64 << (7 * Self::TAIL_CHUNKS);
        for j in 0..Self::TAIL_CHUNKS {
            let e = t[((c >> (7 * j) & 127) | (m >> (3 * j) & 0x380)) as usize];
            if e & 0x80 != 0 {
                return false;
            }
            r |= (e as u64) << (7 * j);
        }
        let n = Self::MAIN - 7 * Self::GROUPS;
        out[7 * Self::GROUPS..][..n].copy_from_slice(&r.to_le_bytes()[..n]);
        true
    }
    #[inline(always)]
    fn read_second(&self, unit: &[u8], sector: &mut [u8]) {
        self.read_first(unit, sector)
    }
}

// ---------------------------------------------------------------- Coset

#[repr(C, align(64))]
pub struct Coset {
    /// nibble tables of the columns: cells 4i..4i+4
    dec: [[u128; 16]; 72],
    /// nibble tables of the change of basis that makes columns 0..128 the unit vectors
    pm: [[u128; 16]; 32],
    /// nibble tables of the changed columns of cells 128..288
    sy: [[u128; 16]; 40],
    /// row i of the changed columns of cells 128..288, in the windows' layout
    rows: [[u64; 4]; 128],
    // scratch of the elimination with rows of 256 bits (32-byte aligned from here on)
    w_rows: [[u64; 4]; 128],
    /// the rows by cell number
    plain: [[u64; 4]; 128],
    w_sums: [[u64; 4]; 32],
    w_piv: [[u64; 4]; 160],
    // scratch of the elimination
    tb: [[u64; 2]; 256],
    ta: [u64; 256],
    rb: [[u64; 2]; 128],
    ra: [u64; 128],
    pb: [[u64; 2]; 160],
    pa: [u64; 160],
    pc: [u8; 160],
    at: [u32; 256],
    epoch: u32,
    /// the processor has AVX2, BMI1, BMI2 and POPCNT (asked once)
    wide: bool,
}

pub fn coset_columns(seed: u64, n: usize) -> Vec<u128> {
    let mut g = SplitMix(seed);
    (0..n)
        .map(|_| {
            let lo = g.next() as u128;
            let hi = g.next() as u128;
            lo | hi << 64
        })
        .collect()
}

const RHS: u64 = 1 << 63;

/// Cells 128..288 (w: bit j is cell 128 + j) to 24 windows of a byte each: the cells 128..144
/// and 272..288, which a first write leaves uncharged, in windows of four cells, the others
/// in windows of eight. So a window has about four free cells. Bit 7 of the last window is
/// the right side.
#[inline(always)]
fn to_windows(w: [u64; 3]) -> [u64; 3] {
    let spread = |e: u64| (e & 0xf) | (e & 0xf0) << 4 | (e & 0xf00) << 8 | (e & 0xf000) << 12;
    let m0 = w[0] >> 16 | w[1] << 48; // cells 144..208
    let m1 = w[1] >> 16 | w[2] << 48; // cells 208..272
    [spread(w[0] & 0xffff) | m0 << 32, m0 >> 32 | m1 << 32, m1 >> 32 | spread(w[2] >> 16 & 0xffff) << 32]
}
#[inline(always)]
fn from_windows(x: [u64; 3]) -> [u64; 3] {
    let pack = |e: u64| (e & 0xf) | (e >> 4 & 0xf0) | (e >> 8 & 0xf00) | (e >> 12 & 0xf000);
    let m0 = x[0] >> 32 | x[1] << 32;
    let m1 = x[1] >> 32 | x[2] << 32;
    [pack(x[0]) | m0 << 16, m0 >> 48 | m1 << 16, m1 >> 48 | pack(x[2] >> 32) << 16]
}

impl Coset {
    pub fn new() -> Box<Coset> {
        let cols = coset_columns(1, 288);
        // Gauss-Jordan over columns 0..128 with tags: unit vectors as sums of columns
        let mut v: Vec<(u128, u128)> = (0..128).map(|i| (cols[i], 1u128 << i)).collect();
        for bit in 0..128 {
            let p = (bit..128).find(|&i| v[i].0 >> bit & 1 == 1).expect("columns 0..128 of seed 1 are a basis");
            v.swap(bit, p);
            let (a, t) = v[bit];
            for i in 0..128 {
                if i != bit && v[i].0 >> bit & 1 == 1 {
                    v[i].0 ^= a;
                    v[i].1 ^= t;
                }
            }
        }
        let unit: Vec<u128> = v.iter().map(|x| x.1).collect();
        let apply = |mut x: u128| {
            let mut r = 0;
            while x != 0 {
                r ^= unit[x.trailing_zeros() as usize];
                x &= x - 1;
            }
            r
        };
        let sys: Vec<u128> = (128..288).map(|j| apply(cols[j])).collect();
        let nib = |c: &[u128]| {
            let mut t = [0u128; 16];
            for s in 0..16usize {
                for b in 0..4 {
                    if s >> b & 1 == 1 {
                        t[s] ^= c[b];
                    }
                }
            }
            t
        };
        let mut me: Box<Coset> = unsafe { Box::new_zeroed().assume_init() };
        me.wide = std::is_x86_feature_detected!("avx2")
            && std::is_x86_feature_detected!("bmi1")
            && std::is_x86_feature_detected!("bmi2")
            && std::is_x86_feature_detected!("popcnt")
            && std::env::var_os("KERNELS_SSE2").is_none();
        for i in 0..72 {
            me.dec[i] = nib(&cols[4 * i..4 * i + 4]);
        }
        for i in 0..32 {
            me.pm[i] = nib(&unit[4 * i..4 * i + 4]);
        }
        for i in 0..40 {
            me.sy[i] = nib(&sys[4 * i..4 * i + 4]);
        }
        for i in 0..128 {
            let mut w = [0u64; 3];
            for (j, s) in sys.iter().enumerate() {
                w[j / 64] |= ((s >> i & 1) as u64) << (j % 64);
            }
            me.plain[i] = [w[0], w[1], w[2], 0];
            let w = to_windows(w);
            me.rows[i] = [w[0], w[1], w[2], 0];
        }
        me
    }

    #[inline(always)]
    unsafe fn nib_sum(t: *const [u128; 16], mut acc: __m128i, w: u64, n: usize) -> __m128i {
        let mut w = w;
        let mut p = t as *const u8;
        for _ in 0..n / 2 {
            let lo = (w as usize & 15) << 4;
            let hi = w as usize & 0xf0;
            acc = _mm_xor_si128(acc, _mm_load_si128(p.add(lo) as *const __m128i));
            acc = _mm_xor_si128(acc, _mm_load_si128(p.add(256 + hi) as *const __m128i));
            w >>= 8;
            p = p.add(512);
        }
        acc
    }
    #[inline(always)]
    fn to128(v: __m128i) -> u128 {
        unsafe { core::mem::transmute(v) }
    }

    /// The sum of the columns of charged cells. `lo`: cells 0..128, `w`: cells 128..288.
    #[inline(always)]
    pub fn decode(&self, lo: [u64; 2], w: [u64; 3]) -> u128 {
        unsafe {
            let z = _mm_setzero_si128();
            let d = self.dec.as_ptr();
            let a = Self::nib_sum(d, z, lo[0], 16);
            let b = Self::nib_sum(d.add(16), z, lo[1], 16);
            let a = Self::nib_sum(d.add(32), a, w[0], 16);
            let b = Self::nib_sum(d.add(48), b, w[1], 16);
            let a = Self::nib_sum(d.add(64), a, w[2], 8);
            Self::to128(_mm_xor_si128(a, b))
        }
    }

    #[inline(always)]
    fn sys_sum(&self, w: [u64; 3]) -> __m128i {
        unsafe {
            let z = _mm_setzero_si128();
            let s = self.sy.as_ptr();
            let a = Self::nib_sum(s, z, w[0], 16);
            let b = Self::nib_sum(s.add(16), z, w[1], 16);
            let a = Self::nib_sum(s.add(32), a, w[2] & 0xffff_ffff, 8);
            _mm_xor_si128(a, b)
        }
    }

    /// Eliminates the windows of one word of the rows: word 0 (A), or word H of `rb`.
    ///
    /// In each window rows with independent bytes are taken until they span the free cells;
    /// `ta`, `tb` hold the sums of all subsets of them, and `at` tells for a byte which sum has
    /// it. So the sum whose byte is one cell alone is that cell's pivot row, and every other
    /// row loses its byte by one addition.
    #[inline(always)]
    unsafe fn windows<const A: bool, const H: usize>(&mut self, free: u64, m: usize, base: &mut usize, np: &mut usize) {
        let ra = self.ra.as_mut_ptr();
        let rb = self.rb.as_mut_ptr() as *mut __m128i;
        let ta = self.ta.as_mut_ptr();
        let tb = self.tb.as_mut_ptr() as *mut __m128i;
        let at = self.at.as_mut_ptr();
        let mut sh = 0u32;
        while sh < 64 {
            let win = (sh >> 3) as usize;
            let mut full = (free >> sh) as usize & 255;
            if sh & 4 != 0 {
                // the upper half of a window that was cut in two
                full = (free >> (sh & !7)) as usize & 0xf0;
                sh += 4;
            } else if full.count_ones() > 5 {
                full &= 15;
                sh += 4;
            } else {
                sh += 8;
            }
            if full == 0 {
                continue;
            }
            if *base == m {
                return;
            }
            let k = full.count_ones() as usize;
            // the byte of this window in the rows and in the sums
            let (bytes, sums) = if A {
                ((ra as *const u8).add(win), (ta as *const u8).add(win))
            } else {
                ((rb as *const u8).add(8 * H + win), (tb as *const u8).add(8 * H + win))
            };
            let step = if A { 8 } else { 16 };
            self.epoch = self.epoch.wrapping_add(256);
            let epoch = self.epoch;
            *at = epoch;
            let mut n = 1usize;
            let end = 1usize << k;
            let mut i = *base;
            while i < m {
                let x = *bytes.add(step * i) as usize & full;
                if *at.add(x) & !255 == epoch {
                    i += 1;
                    continue;
                }
                let va = if A { *ra.add(i) } else { 0 };
                let vb = _mm_load_si128(rb.add(i));
                if A {
                    *ra.add(i) = *ra.add(*base);
                }
                _mm_store_si128(rb.add(i), _mm_load_si128(rb.add(*base)));
                *base += 1;
                i += 1;
                for q in 0..n {
                    if A {
                        *ta.add(n + q) = *ta.add(q) ^ va;
                    }
                    _mm_store_si128(tb.add(n + q), _mm_xor_si128(_mm_load_si128(tb.add(q)), vb));
                    let x = *sums.add(step * (n + q)) as usize & full;
                    *at.add(x) = epoch | (n + q) as u32;
                }
                n *= 2;
                if n == end {
                    break;
                }
            }
            let low = at as *const u8;
            if n == end {
                let mut p = full;
                while p != 0 {
                    let b = p.trailing_zeros() as usize;
                    let t = *at.add(1 << b) as usize & 255;
                    p &= p - 1;
                    if A {
                        *self.pa.get_unchecked_mut(*np) = *ta.add(t);
                    }
                    *(self.pb.as_mut_ptr().add(*np) as *mut __m128i) = _mm_load_si128(tb.add(t));
                    *self.pc.get_unchecked_mut(*np) = (8 * win + b) as u8;
                    *np += 1;
                }
            } else {
                // the rows that are left do not span the free cells: the pivots are the
                // lowest cells of the sums
                let mut leads = 0usize;
                for t in 1..n {
                    let x = *sums.add(step * t) as usize & full;
                    leads |= x & x.wrapping_neg();
                }
                for t in 1..n {
                    let x = *sums.add(step * t) as usize & full & leads;
                    if x & (x - 1) == 0 {
                        if A {
                            *self.pa.get_unchecked_mut(*np) = *ta.add(t);
                        }
                        *(self.pb.as_mut_ptr().add(*np) as *mut __m128i) = _mm_load_si128(tb.add(t));
                        *self.pc.get_unchecked_mut(*np) = (8 * win + x.trailing_zeros() as usize) as u8;
                        *np += 1;
                    }
                }
            }
            if A {
                for i in *base..m {
                    let x = *bytes.add(8 * i) as usize & full;
                    let t = *low.add(4 * x) as usize;
                    *ra.add(i) ^= *ta.add(t);
                    _mm_store_si128(rb.add(i), _mm_xor_si128(_mm_load_si128(rb.add(i)), _mm_load_si128(tb.add(t))));
                }
            } else {
                for i in *base..m {
                    let x = *bytes.add(16 * i) as usize & full;
                    let t = *low.add(4 * x) as usize;
                    _mm_store_si128(rb.add(i), _mm_xor_si128(_mm_load_si128(rb.add(i)), _mm_load_si128(tb.add(t))));
                }
            }
        }
    }

    /// The basis solution, or None.
    ///
    /// In the changed basis cells 0..128 have unit columns, so every uncharged one of them
    /// is in the greedy basis of the free cells. What is left is a system over the rows of
    /// the charged cells among 0..128 and the free cells from 128 on, whose pivot columns in
    /// echelon form are the rest of the greedy basis. It is solved by windows of a byte,
    /// each with a table of the sums of its pivot rows.
    #[inline(always)]
    pub fn over(&mut self, lo: [u64; 2], w: [u64; 3], msg: [u64; 2]) -> Option<([u64; 2], [u64; 3])> {
        if self.wide {
            unsafe { self.over_avx2(lo, w, msg) }
        } else {
            self.over_sse2(lo, w, msg)
        }
    }

    /// The same with rows of 256 bits in which the free cells alone stand side by side (PEXT),
    /// so that a window is four free cells.
    #[target_feature(enable = "avx2,bmi1,bmi2,popcnt")]
    #[inline(never)]
    unsafe fn over_avx2(&mut self, lo: [u64; 2], w: [u64; 3], msg: [u64; 2]) -> Option<([u64; 2], [u64; 3])> {
        let z = _mm_setzero_si128();
        let a = Self::nib_sum(self.pm.as_ptr(), z, msg[0], 16);
        let b = Self::nib_sum(self.pm.as_ptr().add(16), z, msg[1], 16);
        let old = self.sys_sum(w);
        let tv = Self::to128(_mm_xor_si128(_mm_xor_si128(a, b), old));
        let t = [tv as u64 ^ lo[0], (tv >> 64) as u64 ^ lo[1]];
        let f = [!w[0], !w[1], !w[2] & 0xffff_ffff];
        let rows = self.w_rows.as_mut_ptr() as *mut __m256i;
        let sums = self.w_sums.as_mut_ptr() as *mut __m256i;
        let piv = self.w_piv.as_mut_ptr() as *mut __m256i;
        let mut m = 0usize;
        for h in 0..2 {
            let mut r = lo[h];
            while r != 0 {
                let i = r.trailing_zeros() as usize;
                r &= r - 1;
                let row = self.plain.get_unchecked(64 * h + i);
                *self.w_rows.get_unchecked_mut(m) =
                    [_pext_u64(row[0], f[0]), _pext_u64(row[1], f[1]), _pext_u64(row[2], f[2]), t[h] >> i & 1];
                m += 1;
            }
        }
        let mut base = 0usize;
        let mut np = 0usize;
        _mm256_store_si256(sums, _mm256_setzero_si256());
        let mut at = [0u8; 16];
        'all: for h in 0..3usize {
            let free = f[h].count_ones() as usize;
            let mut cell = 0usize;
            while cell < free {
                if base == m {
                    break 'all;
                }
                let k = (free - cell).min(4);
                let sh = (cell & 4) as u32;
                let here = 8 * h + (cell >> 3);
                let bytes = (rows as *const u8).add(here);
                let sbytes = (sums as *const u8).add(here);
                let mut valid = 1u32;
                let mut i = base;
                let mut n = 1usize;
                macro_rules! pivot {
                    ($n:literal) => {
                        loop {
                            if i >= m {
                                break false;
                            }
                            let x = (*bytes.add(32 * i) >> sh & 15) as u32;
                            if valid >> x & 1 == 1 {
                                i += 1;
                                continue;
                            }
                            let v = _mm256_load_si256(rows.add(i));
                            _mm256_store_si256(rows.add(i), _mm256_load_si256(rows.add(base)));
                            base += 1;
                            i += 1;
                            for q in 0..$n {
                                _mm256_store_si256(sums.add($n + q), _mm256_xor_si256(_mm256_load_si256(sums.add(q)), v));
                            }
                            for q in 0..$n {
                                let x = (*sbytes.add(32 * ($n + q)) >> sh & 15) as usize;
                                *at.get_unchecked_mut(x) = ($n + q) as u8;
                                valid |= 1 << x;
                            }
                            n = 2 * $n;
                            break true;
                        }
                    };
                }
                let _ = pivot!(1) && k > 1 && pivot!(2) && k > 2 && pivot!(4) && k > 3 && pivot!(8);
                if n == 16 {
                    for b in 0..4usize {
                        let t = at[1 << b] as usize & 15;
                        _mm256_store_si256(piv.add(np + b), _mm256_load_si256(sums.add(t)));
                        *self.pc.get_unchecked_mut(np + b) = (64 * h + cell + b) as u8;
                    }
                    np += 4;
                } else {
                    // fewer cells, or the rows that are left do not span them: the pivots
                    // are the lowest cells of the sums
                    let mut leads = 0usize;
                    for t in 1..n {
                        let x = (*sbytes.add(32 * t) >> sh & 15) as usize;
                        leads |= x & x.wrapping_neg();
                    }
                    for t in 1..n {
                        let x = (*sbytes.add(32 * t) >> sh & 15) as usize & leads;
                        if x & (x - 1) == 0 {
                            _mm256_store_si256(piv.add(np), _mm256_load_si256(sums.add(t)));
                            *self.pc.get_unchecked_mut(np) = (64 * h + cell + x.trailing_zeros() as usize) as u8;
                            np += 1;
                        }
                    }
                }
                for i in base..m {
                    let x = (*bytes.add(32 * i) >> sh & 15) as usize;
                    let t = *at.get_unchecked(x) as usize;
                    _mm256_store_si256(rows.add(i), _mm256_xor_si256(_mm256_load_si256(rows.add(i)), _mm256_load_si256(sums.add(t))));
                }
                cell += 4;
            }
        }
        for i in base..m {
            if self.w_rows.get_unchecked(i)[3] != 0 {
                return None;
            }
        }
        let mut x = [0u64, 0u64, 0u64];
        while np > 0 {
            np -= 1;
            let r = self.w_piv.get_unchecked(np);
            let v = (((r[0] & x[0]) ^ (r[1] & x[1]) ^ (r[2] & x[2])).count_ones() as u64 ^ r[3]) & 1;
            let c = *self.pc.get_unchecked(np) as usize;
            *x.get_unchecked_mut(c >> 6) |= v << (c & 63);
        }
        let x = [_pdep_u64(x[0], f[0]), _pdep_u64(x[1], f[1]), _pdep_u64(x[2], f[2])];
        let s = Self::to128(self.sys_sum(x));
        let add = [t[0] ^ s as u64, t[1] ^ (s >> 64) as u64];
        debug_assert!(add[0] & lo[0] == 0 && add[1] & lo[1] == 0);
        Some(([lo[0] | add[0], lo[1] | add[1]], [w[0] | x[0], w[1] | x[1], w[2] | x[2]]))
    }

    #[inline(never)]
    fn over_sse2(&mut self, lo: [u64; 2], w: [u64; 3], msg: [u64; 2]) -> Option<([u64; 2], [u64; 3])> {
        unsafe {
            let z = _mm_setzero_si128();
            let a = Self::nib_sum(self.pm.as_ptr(), z, msg[0], 16);
            let b = Self::nib_sum(self.pm.as_ptr().add(16), z, msg[1], 16);
            let old = self.sys_sum(w);
            let t = _mm_xor_si128(_mm_xor_si128(a, b), old);
            let tv = Self::to128(t);
            let t = [tv as u64 ^ lo[0], (tv >> 64) as u64 ^ lo[1]];

            let f = to_windows([!w[0], !w[1], !w[2] & 0xffff_ffff]);
            if self.epoch > u32::MAX - 256 * 64 {
                self.at = [0; 256];
                self.epoch = 0;
            }
            let mut m = 0usize;
            for h in 0..2 {
                let mut r = lo[h];
                while r != 0 {
                    let i = r.trailing_zeros() as usize;
                    r &= r - 1;
                    let row = self.rows.get_unchecked(64 * h + i);
                    *self.ra.get_unchecked_mut(m) = row[0] & f[0];
                    *self.rb.get_unchecked_mut(m) = [row[1] & f[1], (row[2] & f[2]) | (t[h] >> i) << 63];
                    m += 1;
                }
            }
            let mut base = 0usize;
            let mut np = 0usize;
            self.windows::<true, 0>(f[0], m, &mut base, &mut np);
            let np0 = np;
            self.windows::<false, 0>(f[1], m, &mut base, &mut np);
            let np1 = np;
            self.windows::<false, 1>(f[2], m, &mut base, &mut np);
            // rows without a pivot are zero but for their right side
            for i in base..m {
                if self.rb.get_unchecked(i)[1] & RHS != 0 {
                    return None;
                }
            }
            // back substitution
            let mut x = [0u64, 0u64, RHS];
            while np > np1 {
                np -= 1;
                let v = (self.pb.get_unchecked(np)[1] & x[2]).count_ones() as u64 & 1;
                x[2] |= v << (*self.pc.get_unchecked(np) & 63);
            }
            while np > np0 {
                np -= 1;
                let b = *self.pb.get_unchecked(np);
                let v = ((b[0] & x[1]) ^ (b[1] & x[2])).count_ones() as u64 & 1;
                x[1] |= v << (*self.pc.get_unchecked(np) & 63);
            }
            while np > 0 {
                np -= 1;
                let a = *self.pa.get_unchecked(np);
                let b = *self.pb.get_unchecked(np);
                let v = ((a & x[0]) ^ (b[0] & x[1]) ^ (b[1] & x[2])).count_ones() as u64 & 1;
                x[0] |= v << (*self.pc.get_unchecked(np) & 63);
            }
            x[2] &= !RHS;
            let x = from_windows(x);
            let s = Self::to128(self.sys_sum(x));
            let add = [t[0] ^ s as u64, t[1] ^ (s >> 64) as u64];
            debug_assert!(add[0] & lo[0] == 0 && add[1] & lo[1] == 0);
            Some(([lo[0] | add[0], lo[1] | add[1]], [w[0] | x[0], w[1] | x[1], w[2] | x[2]]))
        }
    }
}

/// Plain (FLIP = false) or Flip first, Coset second: 18 bytes of each page per chunk.
pub struct CosetScheme<const B: usize, const FLIP: bool> {
    pub c: Box<Coset>,
}
#[inline(always)]
fn load_chunk(unit: &[u8], p: usize, i: usize) -> ([u64; 2], [u64; 3]) {
    let a = 18 * i;
    let b = p + 18 * i;
    let lo = [ld64(unit, a), ld64(unit, a + 8)];
    let e = ld16(unit, a + 16) as u64;
    let (q0, q1, q2) = (ld64(unit, b), ld64(unit, b + 8), ld16(unit, b + 16) as u64);
    (lo, [e | q0 << 16, q0 >> 48 | q1 << 16, q1 >> 48 | q2 << 16])
}
#[inline(always)]
fn store_chunk(out: &mut [u8], p: usize, i: usize, lo: [u64; 2], w: [u64; 3]) {
    let a = 18 * i;
    let b = p + 18 * i;
    st64(out, a, lo[0]);
    st64(out, a + 8, lo[1]);
    st16(out, a + 16, w[0] as u16);
    st64(out, b, w[0] >> 16 | w[1] << 48);
    st64(out, b + 8, w[1] >> 16 | w[2] << 48);
    st16(out, b + 16, (w[2] >> 16) as u16);
}
impl<const B: usize, const FLIP: bool> Scheme for CosetScheme<B, FLIP> {
    const SECTOR: usize = B;
    const MAIN: usize = B / 16 * 18;
    const SPAN: usize = 2;
    const G: usize = 2;
    fn new() -> Self {
        CosetScheme { c: Coset::new() }
    }
    #[inline(always)]
    fn first(&self, sector: &[u8], page: &mut [u8]) {
        assert!(sector.len() >= B && page.len() >= Self::PAGE);
        for i in 0..B / 16 {
            let mut a = ld64(sector, 16 * i);
            let mut b = ld64(sector, 16 * i + 8);
            let mut e = 0u16;
            if FLIP {
                let ones = a.count_ones() + b.count_ones();
                let k = if 129 - ones < ones { !0u64 } else { 0 };
                a ^= k;
                b ^= k;
                e = (k & 1) as u16;
            }
            st64(page, 18 * i, a);
            st64(page, 18 * i + 8, b);
            st16(page, 18 * i + 16, e);
        }
    }
    #[inline(always)]
    fn read_first(&self, page: &[u8], sector: &mut [u8]) {
        assert!(sector.len() >= B && page.len() >= Self::PAGE);
        for i in 0..B / 16 {
            let mut a = ld64(page, 18 * i);
            let mut b = ld64(page, 18 * i + 8);
            if FLIP {
                let k = 0u64.wrapping_sub((page[18 * i + 16] & 1) as u64);
                a ^= k;
                b ^= k;
            }
            st64(sector, 16 * i, a);
            st64(sector, 16 * i + 8, b);
        }
    }
    fn over(&mut self, unit: &[u8], sector: &[u8], out: &mut [u8]) -> bool {
        assert!(unit.len() >= 2 * Self::PAGE && sector.len() >= B && out.len() >= 2 * Self::PAGE);
        for i in 0..B / 16 {
            let (lo, w) = load_chunk(unit, Self::PAGE, i);
            let msg = [ld64(sector, 16 * i), ld64(sector, 16 * i + 8)];
            match self.c.over(lo, w, msg) {
                None => return false,
                Some((lo, w)) => store_chunk(out, Self::PAGE, i, lo, w),
            }
        }
        true
    }
    fn read_second(&self, unit: &[u8], sector: &mut [u8]) {
        assert!(unit.len() >= 2 * Self::PAGE && sector.len() >= B);
        for i in 0..B / 16 {
            let (lo, w) = load_chunk(unit, Self::PAGE, i);
            let m = self.c.decode(lo, w);
            st64(sector, 16 * i, m as u64);
            st64(sector, 16 * i + 8, (m >> 64) as u64);
        }
    }
}
