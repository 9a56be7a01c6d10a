// Finding among 8,192 rows: the proved `find` beside Rust's `binary_search_by_key`.
use std::hint::black_box;
use std::time::Instant;

#[repr(C)]
struct Row {
    code: u32,
    price: u32,
    amount: u64,
}

unsafe extern "C" {
    fn find_row(rows: *const Row, len: usize, used: usize, code: u32) -> usize;
}

const ROWS: usize = 8_192;
const FINDS: u32 = 5_000_000;

// Codes at random, of which about half stand in the table.
fn codes(mut seed: u32) -> impl Iterator<Item = u32> {
    std::iter::repeat_with(move || {
        seed ^= seed << 13;
        seed ^= seed >> 17;
        seed ^= seed << 5;
        seed % (2 * ROWS as u32)
    })
}

fn timed(name: &str, mut find: impl FnMut(u32) -> usize) -> usize {
    let start = Instant::now();
    let sum = codes(7).take(FINDS as usize).fold(0, |sum: usize, code| sum.wrapping_add(find(black_box(code))));
    println!("{name}: {:.1} ns a find", start.elapsed().as_nanos() as f64 / f64::from(FINDS));
    sum
}

fn main() {
    let rows: Vec<Row> = (0..ROWS as u32).map(|n| Row { code: 2 * n, price: n % 100, amount: u64::from(n) }).collect();
    let mut sums = Vec::new();
    for _ in 0..3 {
        sums.push(timed("keyed::find", |code| unsafe { find_row(rows.as_ptr(), rows.len(), rows.len(), code) }));
        sums.push(timed("binary_search", |code| rows.binary_search_by_key(&code, |row| row.code).unwrap_or(rows.len())));
    }
    assert!(sums.iter().all(|sum| *sum == sums[0]), "the two disagree");
}
