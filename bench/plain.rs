// What spl_bench computes, by the same algorithms in plain Rust: `rustc -O bench/plain.rs`.
use std::env;
use std::hint::black_box;

/// A field by its tables, as SmallField has them.
struct Field {
    size: usize,
    sums: Vec<u8>,
    negatives: Vec<u8>,
    products: Vec<u8>,
    inverses: Vec<u8>,
}

fn sum_by_digits(p: usize, d: usize, a: usize, b: usize) -> usize {
    let (mut total, mut place) = (0, 1);
    for _ in 0..d {
        total += (a / place % p + b / place % p) % p * place;
        place *= p;
    }
    total
}

fn product_by_t(p: usize, modulus: &[usize], size: usize, a: usize) -> usize {
    let moved = p * a;
    let top = moved / size;
    let (mut total, mut place) = (0, 1);
    for m in modulus {
        total += (moved / place % p + (p - m) * top) % p * place;
        place *= p;
    }
    total
}

impl Field {
    fn new(p: usize, modulus: &[usize]) -> Field {
        let d = modulus.len();
        let size = p.pow(d as u32);
        let mut f = Field {
            size,
            sums: vec![0; size * size],
            negatives: vec![0; size],
            products: vec![0; size * size],
            inverses: vec![0; size],
        };
        for a in 0..size {
            for b in 0..size {
                let sum = sum_by_digits(p, d, a, b);
                let product = if b == 0 {
                    0
                } else if b % p == 0 {
                    product_by_t(p, modulus, size, f.products[a * size + b / p] as usize)
                } else {
                    sum_by_digits(p, d, f.products[a * size + b - 1] as usize, a)
                };
                f.sums[a * size + b] = sum as u8;
                f.products[a * size + b] = product as u8;
                if sum == 0 {
                    f.negatives[a] = b as u8;
                }
                if product == 1 {
                    f.inverses[a] = b as u8;
                }
            }
        }
        f
    }

    #[inline]
    fn sum(&self, a: u8, b: u8) -> u8 {
        self.sums[a as usize * self.size + b as usize]
    }

    #[inline]
    fn product(&self, a: u8, b: u8) -> u8 {
        self.products[a as usize * self.size + b as usize]
    }

    #[inline]
    fn negative(&self, a: u8) -> u8 {
        self.negatives[a as usize]
    }

    #[inline]
    fn inverse(&self, a: u8) -> u8 {
        self.inverses[a as usize]
    }
}

fn next(state: u32) -> u32 {
    state % 65537 * 75 + 74
}

fn items(f: &Field, n: usize, seed: u32) -> Vec<u8> {
    let mut state = seed;
    let mut out = Vec::new();
    for _ in 0..n {
        state = next(state);
        out.push((1 + state / 7 % (f.size as u32 - 1)) as u8);
    }
    out
}

fn checksum(items: &[u8]) -> u32 {
    items.iter().fold(0, |sum, item| sum % 65521 * 31 + u32::from(*item))
}

fn line(p: &[u8]) -> String {
    match p.len().checked_sub(1) {
        Some(degree) => format!("degree {degree} checksum {}", checksum(p)),
        None => "zero".to_string(),
    }
}

fn trimmed(mut c: Vec<u8>) -> Vec<u8> {
    while c.last() == Some(&0) {
        c.pop();
    }
    c
}

fn product_coefficient(f: &Field, x: &[u8], y: &[u8], k: usize) -> u8 {
    let low = if k >= y.len() { k - y.len() + 1 } else { 0 };
    let high = if k < x.len() { k + 1 } else { x.len() };
    let mut total = 0;
    for i in low..high {
        total = f.sum(total, f.product(x[i], y[k - i]));
    }
    total
}

fn multiply(f: &Field, x: &[u8], y: &[u8]) -> Vec<u8> {
    let mut out = vec![0; (x.len() + y.len()).saturating_sub(1)];
    for k in 0..out.len() {
        out[k] = product_coefficient(f, x, y, k);
    }
    trimmed(out)
}

fn add_scaled_row(f: &Field, r: &mut [u8], s: usize, c: u8, by: &[u8]) {
    for j in 0..by.len() {
        r[s + j] = f.sum(r[s + j], f.product(c, by[j]));
    }
}

fn divide(f: &Field, a: &[u8], by: &[u8]) -> (Vec<u8>, Vec<u8>) {
    let top = by.len() - 1;
    let unit = f.inverse(by[top]);
    let mut r = a.to_vec();
    let mut q = vec![0; (r.len() + 1).saturating_sub(by.len())];
    for s in (0..q.len()).rev() {
        let c = f.product(r[s + top], unit);
        q[s] = c;
        add_scaled_row(f, &mut r, s, f.negative(c), by);
    }
    (trimmed(q), trimmed(r))
}

fn add_multiple(f: &Field, row: &mut [u8], c: u8, other: &[u8]) {
    for j in 0..row.len() {
        if other[j] != 0 {
            row[j] = f.sum(row[j], f.product(c, other[j]));
        }
    }
}

fn pivot(f: &Field, rows: &mut [Vec<u8>], p: usize, r: usize, col: usize) {
    rows.swap(p, r);
    let mut lead = std::mem::take(&mut rows[r]);
    let factor = f.inverse(lead[col]);
    for item in lead.iter_mut().filter(|item| **item != 0) {
        *item = f.product(factor, *item);
    }
    for i in 0..rows.len() {
        if i != r && rows[i][col] != 0 {
            let c = f.negative(rows[i][col]);
            add_multiple(f, &mut rows[i], c, &lead);
        }
    }
    rows[r] = lead;
}

/// Brings the first w columns into reduced row echelon form, and answers their pivots.
fn eliminate(f: &Field, w: usize, rows: &mut [Vec<u8>]) -> Vec<usize> {
    let mut pivots = Vec::new();
    for col in 0..w {
        let r = pivots.len();
        if let Some(p) = (r..rows.len()).find(|i| rows[*i][col] != 0) {
            pivot(f, rows, p, r, col);
            pivots.push(col);
        }
    }
    pivots
}

fn basis(f: &Field, w: usize, m: &[Vec<u8>]) -> (Vec<Vec<u8>>, Vec<usize>) {
    let mut rows = m.to_vec();
    let pivots = eliminate(f, w, &mut rows);
    rows.truncate(pivots.len());
    (rows, pivots)
}

fn kernel(f: &Field, w: usize, m: &[Vec<u8>]) -> Vec<Vec<u8>> {
    let (rows, pivots) = basis(f, w, m);
    let mut vectors = Vec::new();
    for j in (0..w).filter(|j| !pivots.contains(j)) {
        let mut vector = vec![0; w];
        vector[j] = 1;
        for (s, col) in pivots.iter().enumerate() {
            vector[*col] = f.negative(rows[s][j]);
        }
        vectors.push(vector);
    }
    basis(f, w, &vectors).0
}

fn dot(f: &Field, a: &[u8], b: &[u8]) -> u8 {
    let mut sum = 0;
    for i in 0..a.len() {
        sum = f.sum(sum, f.product(a[i], b[i]));
    }
    sum
}

/// Whether there is a solution, and it or the multipliers that refute the system.
fn solve(f: &Field, w: usize, m: &[Vec<u8>], right: &[u8]) -> (bool, Vec<u8>) {
    let h = m.len();
    let mut rows = Vec::new();
    for (i, row) in m.iter().enumerate() {
        let mut longer = vec![0; w + h];
        longer[..w].copy_from_slice(row);
        longer[w + i] = 1;
        rows.push(longer);
    }
    let pivots = eliminate(f, w, &mut rows);
    let transform: Vec<Vec<u8>> = rows.iter().map(|row| row[w..].to_vec()).collect();
    let c: Vec<u8> = transform.iter().map(|row| dot(f, row, right)).collect();
    match (pivots.len()..h).find(|i| c[*i] != 0) {
        Some(i) => {
            let factor = f.inverse(c[i]);
            (false, transform[i].iter().map(|x| f.product(factor, *x)).collect())
        }
        None => {
            let mut v = vec![0; w];
            for (s, col) in pivots.iter().enumerate() {
                v[*col] = c[s];
            }
            (true, v)
        }
    }
}

fn matrix(f: &Field, height: usize, width: usize) -> Vec<Vec<u8>> {
    let mut seed = 3;
    let mut rows = Vec::new();
    for _ in 0..height {
        seed = next(seed);
        rows.push(items(f, width, seed));
    }
    rows
}

fn add(f: &Field, a: &[u8], b: &[u8]) -> Vec<u8> {
    let (long, short) = if a.len() < b.len() { (b, a) } else { (a, b) };
    let mut out = long.to_vec();
    for (x, y) in out.iter_mut().zip(short) {
        *x = f.sum(*x, *y);
    }
    trimmed(out)
}

type Row = Vec<Vec<u8>>;

/// Rows that are reduced in the first columns, with the places where they lead, and rows that are 0 there.
#[derive(Default)]
struct Split {
    basis: Vec<Row>,
    places: Vec<usize>,
    zeros: Vec<Row>,
}

/// The last of the first w columns in which the row reaches its greatest degree there.
fn leading_position(row: &Row, w: usize) -> Option<usize> {
    let place = (0..w).max_by_key(|j| row[*j].len())?;
    (!row[place].is_empty()).then_some(place)
}

/// Brings the row in, by the algorithm of Mulders and Storjohann.
fn insert(f: &Field, w: usize, split: &mut Split, mut row: Row) {
    while let Some(p) = leading_position(&row, w) {
        let Some(i) = split.places.iter().position(|q| *q == p) else {
            split.places.push(p);
            split.basis.push(row);
            return;
        };
        if row[p].len() < split.basis[i][p].len() {
            std::mem::swap(&mut row, &mut split.basis[i]);
        }
        let by = &split.basis[i];
        let quotient = divide(f, &row[p], &by[p]).0;
        let multiple = multiply(f, &quotient, &[f.negative(1)]);
        for (x, y) in row.iter_mut().zip(by).filter(|(_, y)| !y.is_empty()) {
            *x = add(f, x, &multiply(f, &multiple, y));
        }
    }
    split.zeros.push(row);
}

/// The rows, each followed by its unit row, reduced in the first columns.
fn split(f: &Field, rows: &[Row]) -> Split {
    let w = rows[0].len();
    let mut split = Split::default();
    for (i, row) in rows.iter().enumerate() {
        let units = (0..rows.len()).map(|k| if k == i { vec![1] } else { Vec::new() });
        insert(f, w, &mut split, row.iter().cloned().chain(units).collect());
    }
    split
}

fn polynomials(f: &Field, height: usize, width: usize) -> Vec<Row> {
    let mut seed = 3;
    let mut rows = Vec::new();
    for _ in 0..height {
        seed = next(seed / 5 + 1);
        let mut state = seed;
        let mut row = Vec::new();
        for j in 0..width {
            state = next(if j % 25 == 0 { seed } else { state });
            row.push(items(f, 9, state / 3 + 5));
        }
        rows.push(row);
    }
    rows
}

/// The checksum of the entries from w on, or up to w.
fn sums(rows: &[Row], w: usize, tails: bool) -> u32 {
    let entries = rows.iter().flat_map(|row| if tails { &row[w..] } else { &row[..w] });
    entries.flatten().fold(0, |sum, c| sum % 65521 * 31 + u32::from(*c))
}

/// The last of count values.
fn last<T>(count: u64, compute: impl Fn() -> T) -> T {
    for _ in 1..count {
        black_box(compute());
    }
    compute()
}

fn report(word: &str, f: &Field, count: u64) -> Option<String> {
    match word {
        "mul" => {
            let (a, b) = (items(f, 32, 1), items(f, 32, 2));
            Some(line(&last(count, || multiply(black_box(f), black_box(&a), black_box(&b)))))
        }
        "divide" => {
            let (a, b) = (items(f, 63, 1), items(f, 32, 2));
            Some(line(&last(count, || divide(black_box(f), black_box(&a), black_box(&b))).1))
        }
        "kernel" => {
            let m = matrix(f, 625, 25);
            let vectors = last(count, || kernel(black_box(f), 25, black_box(&m)));
            Some(format!("dimension {}", vectors.len()))
        }
        "solve" => {
            let (m, right) = (matrix(f, 200, 25), items(f, 200, 5));
            let (solved, v) = last(count, || solve(black_box(f), 25, black_box(&m), &right));
            Some(format!("{} {}", if solved { "solved" } else { "refuted" }, checksum(&v)))
        }
        "reduce" => {
            let rows = polynomials(f, 25, 25);
            let basis = last(count, || split(black_box(f), black_box(&rows))).basis;
            let (sum, transform) = (sums(&basis, 25, false), sums(&basis, 25, true));
            Some(format!("rows {} checksum {sum} transform {transform}", basis.len()))
        }
        "wide" => {
            let rows = polynomials(f, 26, 1250);
            let zeros = last(count, || split(black_box(f), black_box(&rows))).zeros;
            Some(format!("rows {} checksum {}", zeros.len(), sums(&zeros, 1250, true)))
        }
        _ => None,
    }
}

fn answer(words: &[String]) -> Option<String> {
    let words: Vec<&str> = words.iter().map(String::as_str).collect();
    let (word, size, count) = match words[..] {
        [word @ ("mul" | "divide"), size, count] => (word, size, count),
        [word @ ("kernel" | "solve"), count] => (word, "256", count),
        [word @ ("reduce" | "wide"), count] => (word, "5", count),
        _ => return None,
    };
    let count = count.parse().ok().filter(|count| *count > 0)?;
    match size {
        "5" => report(word, &Field::new(5, &[0]), count),
        "256" => report(word, &Field::new(2, &[1, 1, 0, 1, 1, 0, 0, 0]), count),
        _ => None,
    }
}

fn main() {
    let words: Vec<String> = env::args().skip(1).collect();
    match answer(&words) {
        Some(line) => println!("{line}"),
        None => println!(
            "usage: mul Q COUNT | divide Q COUNT | kernel COUNT | solve COUNT | reduce COUNT | wide COUNT, Q = 5 or 256"
        ),
    }
}
