//! Fraction-free elimination of matrices of polynomials in plain Rust, with the same input and the same words as
//! `bench_elimination` behind one that says how: `literal` multiplies by hash tables, subtracts by merging and divides by leading
//! terms, a new rest in each step. `fused` makes p·x − a·y and its quotient in one table of cells, one for each monomial of a box,
//! with a loop of its own for coefficients within 64 bits, and goes the literal way where a limit is near or the box is large.
//! `wide` is the same without that loop.
use std::collections::HashMap;
use std::hash::{BuildHasherDefault, Hasher};
use std::io::Read;

// ---- monomials: sixteen bits for the total and for each of six exponents, so that a product is a sum

const NAMES: usize = 6;
const GUARD: u128 = 0x8000_8000_8000_8000_8000_8000;

#[derive(Clone, Copy, PartialEq, Eq, PartialOrd, Ord, Hash)]
struct Mono(u128);

impl Mono {
    fn of(exponents: &[u16; NAMES]) -> Mono {
        let total: u128 = exponents.iter().map(|e| u128::from(*e)).sum();
        Mono(exponents.iter().fold(total, |m, e| m << 16 | u128::from(*e)))
    }

    fn exponent(self, i: usize) -> usize {
        (self.0 >> (16 * (NAMES - 1 - i))) as usize & 0xffff
    }

    fn total(self) -> usize {
        (self.0 >> (16 * NAMES)) as usize
    }

    fn times(self, other: Mono) -> Mono {
        Mono(self.0 + other.0)
    }

    fn over(self, by: Mono) -> Option<Mono> {
        (((self.0 | GUARD) - by.0) & GUARD == GUARD).then(|| Mono(self.0 - by.0))
    }
}

// ---- polynomials: terms in falling order

const LARGEST: u128 = i128::MAX as u128;
const LARGEST_DEGREE: usize = 4095;
const MOST_TERMS: usize = 1 << 20;

#[derive(Clone, Copy, PartialEq, Eq)]
struct Term {
    mono: Mono,
    coef: i128,
}

type Poly = Vec<Term>;

#[derive(Clone, Copy, Debug, PartialEq, Eq)]
enum Overflow {
    Degree,
    Terms,
    Number,
}

fn one() -> Poly {
    vec![Term { mono: Mono(0), coef: 1 }]
}

fn norm(p: &[Term]) -> u128 {
    p.iter().map(|t| t.coef.unsigned_abs()).sum()
}

fn degree(p: &[Term]) -> usize {
    p.first().map_or(0, |t| t.mono.total())
}

fn gcd(mut a: u128, mut b: u128) -> u128 {
    while b != 0 {
        (a, b) = (b, a % b);
    }
    a
}

fn content(p: &[Term], start: u128) -> u128 {
    let mut g = start;
    for t in p {
        if g == 1 {
            return 1;
        }
        g = gcd(t.coef.unsigned_abs(), g);
    }
    g
}

/// A polynomial over its sign and its content.
fn primitive_form(p: &[Term]) -> Poly {
    let by = content(p, 0) as i128;
    let by = if p[0].coef < 0 { -by } else { by };
    p.iter().map(|t| Term { mono: t.mono, coef: t.coef / by }).collect()
}

/// p + c·m·q, in one pass.
fn with_multiple(p: &[Term], mono: Mono, coef: i128, q: &[Term]) -> Poly {
    let mut out = Vec::with_capacity(p.len() + q.len());
    let mut rest = p.iter().copied().peekable();
    for u in q {
        let made = Term { mono: mono.times(u.mono), coef: coef * u.coef };
        while let Some(t) = rest.next_if(|t| t.mono > made.mono) {
            out.push(t);
        }
        match rest.next_if(|t| t.mono == made.mono) {
            None => out.push(made),
            Some(t) if t.coef + made.coef != 0 => out.push(Term { mono: t.mono, coef: t.coef + made.coef }),
            Some(_) => {}
        }
    }
    out.extend(rest);
    out
}

fn fits(number: Option<u128>) -> bool {
    number.is_some_and(|n| n <= LARGEST)
}

#[derive(Default)]
struct Mixer(u64);

impl Hasher for Mixer {
    fn finish(&self) -> u64 {
        self.0
    }

    fn write(&mut self, _: &[u8]) {
        unreachable!("keys are numbers of 128 bits")
    }

    fn write_u128(&mut self, n: u128) {
        let mixed = (n as u64 ^ ((n >> 64) as u64).rotate_left(29)).wrapping_mul(0x9e37_79b9_7f4a_7c15);
        self.0 = mixed ^ (mixed >> 32);
    }
}

fn product(p: &[Term], q: &[Term]) -> Result<Poly, Overflow> {
    if p.is_empty() || q.is_empty() {
        return Ok(Poly::new());
    }
    if degree(p) + degree(q) > LARGEST_DEGREE {
        return Err(Overflow::Degree);
    }
    if p.len() * q.len() > MOST_TERMS {
        return Err(Overflow::Terms);
    }
    if !fits(norm(p).checked_mul(norm(q))) {
        return Err(Overflow::Number);
    }
    let mut sums: HashMap<Mono, i128, BuildHasherDefault<Mixer>> = HashMap::with_capacity_and_hasher(p.len() + q.len(), Default::default());
    for t in p {
        for u in q {
            *sums.entry(t.mono.times(u.mono)).or_insert(0) += t.coef * u.coef;
        }
    }
    let mut out: Poly = sums.into_iter().filter(|(_, c)| *c != 0).map(|(mono, coef)| Term { mono, coef }).collect();
    out.sort_unstable_by(|t, u| u.mono.cmp(&t.mono));
    Ok(out)
}

fn difference(p: &[Term], q: &[Term]) -> Result<Poly, Overflow> {
    if p.len() + q.len() > MOST_TERMS {
        return Err(Overflow::Terms);
    }
    if norm(p) + norm(q) > LARGEST {
        return Err(Overflow::Number);
    }
    Ok(with_multiple(p, Mono(0), -1, q))
}

/// The exact quotient, where the division meets no limit.
fn quotient(p: &[Term], by: &[Term]) -> Option<Poly> {
    let lead = by[0];
    let by_norm = norm(by);
    let mut rest = p.to_vec();
    let mut found = Poly::new();
    let mut found_norm = 0u128;
    while let Some(top) = rest.first() {
        let mono = top.mono.over(lead.mono)?;
        if top.coef % lead.coef != 0 {
            return None;
        }
        let coef = top.coef / lead.coef;
        let made = coef.unsigned_abs().checked_mul(by_norm)?;
        found_norm += coef.unsigned_abs();
        if rest.len() + by.len() > MOST_TERMS || found.len() + 1 > MOST_TERMS {
            return None;
        }
        if made > LARGEST || norm(&rest) + made > LARGEST || found_norm > LARGEST {
            return None;
        }
        rest = with_multiple(&rest[1..], mono, -coef, &by[1..]);
        found.push(Term { mono, coef });
    }
    Some(found)
}

// ---- cells

#[derive(Clone, Copy, PartialEq, Eq)]
enum Way {
    Literal,
    Wide,
    Fused,
}

/// How elimination goes, and the table that all its steps use.
struct Work {
    way: Way,
    cells: Vec<i128>,
}

const MOST_CELLS: usize = 1 << 20;

/// The boxes of monomials whose exponents are at most those of `tops`, and how far apart the cells of neighbours are.
struct Cells {
    tops: [usize; NAMES],
    strides: [usize; NAMES],
    cells: usize,
}

fn tops(p: &[Term]) -> [usize; NAMES] {
    p.iter().fold([0; NAMES], |tops, t| std::array::from_fn(|i| tops[i].max(t.mono.exponent(i))))
}

impl Cells {
    fn new(tops: [usize; NAMES], most: usize) -> Option<Cells> {
        let mut strides = [0; NAMES];
        let mut cells = 1;
        for i in (0..NAMES).rev() {
            strides[i] = cells;
            cells *= tops[i] + 1;
            if cells > most {
                return None;
            }
        }
        Some(Cells { tops, strides, cells })
    }

    fn cell(&self, mono: Mono) -> usize {
        (0..NAMES).map(|i| self.strides[i] * mono.exponent(i)).sum()
    }

    /// The monomial of a cell, where its exponents leave room.
    fn mono(&self, cell: usize, room: &[usize; NAMES]) -> Option<Mono> {
        let mut left = cell;
        let mut exponents = [0; NAMES];
        for i in 0..NAMES {
            if self.tops[i] > 0 {
                exponents[i] = (left / self.strides[i]) as u16;
                left %= self.strides[i];
                if usize::from(exponents[i]) > room[i] {
                    return None;
                }
            }
        }
        Some(Mono::of(&exponents))
    }

    fn spots(&self, p: &[Term], way: Way) -> Spots {
        if way == Way::Fused && p.iter().all(|t| i64::try_from(t.coef).is_ok()) {
            Spots::Narrow(p.iter().map(|t| (self.cell(t.mono), t.coef as i64)).collect())
        } else {
            Spots::Wide(p.iter().map(|t| (self.cell(t.mono), t.coef)).collect())
        }
    }
}

/// The cells of a list of terms, with their coefficients.
enum Spots {
    Narrow(Vec<(usize, i64)>),
    Wide(Vec<(usize, i128)>),
}

impl Spots {
    fn add_multiple(&self, cells: &mut [i128], coef: i128) {
        match (self, i64::try_from(coef)) {
            (Spots::Narrow(spots), Ok(coef)) => add_narrow(cells, coef, spots),
            (Spots::Narrow(spots), Err(_)) => {
                for (place, c) in spots {
                    cells[*place] += coef * i128::from(*c);
                }
            }
            (Spots::Wide(spots), _) => {
                for (place, c) in spots {
                    cells[*place] += coef * c;
                }
            }
        }
    }
}

/// One multiplication a spot. Were this inlined, the compiler would take the loop for wide factors here too.
#[inline(never)]
fn add_narrow(cells: &mut [i128], coef: i64, spots: &[(usize, i64)]) {
    for (place, c) in spots {
        cells[*place] += i128::from(coef) * i128::from(*c);
    }
}

/// Adds the product of two lists, times 1 or −1.
fn add_product(work: &mut Work, whole: &Cells, p: &[Term], q: &[Term], sign: i128) {
    let (short, long) = if p.len() <= q.len() { (p, q) } else { (q, p) };
    let spots = whole.spots(long, work.way);
    for t in short {
        spots.add_multiple(&mut work.cells[whole.cell(t.mono)..], sign * t.coef);
    }
}

/// The quotient of p·x − a·y, where the measures leave room for each literal step and it is found in cells.
fn cross_quotient(work: &mut Work, p: &[Term], a: &[Term], x: &[Term], y: &[Term], by: &[Term]) -> Option<Poly> {
    let mut most = [0; NAMES];
    let (mut count, mut size) = (0, 0u128);
    for (p, q) in [(p, x), (a, y)] {
        if p.is_empty() || q.is_empty() {
            continue;
        }
        if degree(p) + degree(q) > LARGEST_DEGREE {
            return None;
        }
        count += p.len() * q.len();
        size = size.checked_add(norm(p).checked_mul(norm(q))?)?;
        let (first, second) = (tops(p), tops(q));
        most = std::array::from_fn(|i| most[i].max(first[i] + second[i]));
    }
    if count == 0 {
        return Some(Poly::new());
    }
    if count > MOST_TERMS || size > LARGEST {
        return None;
    }
    let whole = Cells::new(most, MOST_CELLS.min(16 * (count + 64)))?;
    work.cells.clear();
    work.cells.resize(whole.cells, 0);
    add_product(work, &whole, p, x, 1);
    add_product(work, &whole, a, y, -1);
    taken_out(work, &whole, count, size, by)
}

/// What multiples of a divisor are taken from the table, from the highest cell down, where nothing is left then.
fn taken_out(work: &mut Work, whole: &Cells, count: usize, size: u128, by: &[Term]) -> Option<Poly> {
    let by_tops = tops(by);
    let by_norm = norm(by);
    let mut room = [0; NAMES];
    for i in 0..NAMES {
        room[i] = whole.tops[i].checked_sub(by_tops[i])?;
    }
    let spots = whole.spots(by, work.way);
    let cells = &mut work.cells;
    let (lead_cell, lead) = by.iter().map(|t| (whole.cell(t.mono), t.coef)).max_by_key(|s| s.0)?;
    let mut found = Poly::new();
    let mut found_norm = 0u128;
    for at in (0..cells.len()).rev() {
        let c = cells[at];
        if c == 0 {
            continue;
        }
        let base = at.checked_sub(lead_cell)?;
        let mono = whole.mono(base, &room)?;
        let coef = if lead == 1 { c } else { c / lead };
        if lead != 1 && coef * lead != c {
            return None;
        }
        found_norm += coef.unsigned_abs();
        let made = found_norm.checked_mul(by_norm)?;
        if found_norm > LARGEST || made > LARGEST || size + made > LARGEST || count + (found.len() + 1) * by.len() > MOST_TERMS {
            return None;
        }
        spots.add_multiple(&mut cells[base..], -coef);
        found.push(Term { mono, coef });
    }
    found.sort_unstable_by(|t, u| u.mono.cmp(&t.mono));
    Some(found)
}

// ---- elimination

struct Matrix {
    certs: usize,
    width: usize,
    rows: Vec<Vec<Poly>>,
}

struct Echelon {
    rows: Vec<Vec<Poly>>,
    pivots: usize,
    free: Option<usize>,
}

fn cross(work: &mut Work, p: &[Term], a: &[Term], x: &[Term], y: &[Term]) -> Result<Poly, Overflow> {
    if work.way != Way::Literal && (p.len().min(x.len()) >= 4 || a.len().min(y.len()) >= 4) {
        if let Some(found) = cross_quotient(work, p, a, x, y, &one()) {
            return Ok(found);
        }
    }
    difference(&product(p, x)?, &product(a, y)?)
}

fn divided(work: &mut Work, p: &[Term], by: &[Term]) -> Option<Poly> {
    if work.way != Way::Literal {
        if let Some(found) = cross_quotient(work, &one(), &[], p, &[], by) {
            return Some(found);
        }
    }
    quotient(p, by)
}

/// What becomes of another row than the pivot's.
fn other(work: &mut Work, column: usize, pivot: &[Poly], by: &[Term], row: &[Poly]) -> Result<Vec<Poly>, Overflow> {
    let (p, a) = (&pivot[column], &row[column]);
    let pairs = || row.iter().zip(pivot).enumerate();
    if work.way != Way::Literal {
        let entry = |work: &mut Work, (k, (x, y)): (usize, (&Poly, &Poly))| {
            if k == column { Some(Poly::new()) } else { cross_quotient(work, p, a, x, y, by) }
        };
        if let Some(found) = pairs().map(|pair| entry(work, pair)).collect() {
            return Ok(found);
        }
    }
    let mut crossed = Vec::with_capacity(row.len());
    for (k, (x, y)) in pairs() {
        crossed.push(if k == column { Poly::new() } else { cross(work, p, a, x, y)? });
    }
    Ok(crossed.iter().map(|z| divided(work, z, by)).collect::<Option<Vec<Poly>>>().unwrap_or(crossed))
}

fn over_content(row: &mut [Poly]) {
    let by = row.iter().fold(0, |g, p| content(p, g));
    if by > 1 {
        for t in row.iter_mut().flatten() {
            t.coef /= by as i128;
        }
    }
}

fn eliminate(way: Way, matrix: &Matrix) -> Result<Echelon, Overflow> {
    let height = matrix.rows.len();
    let unit = |r: usize| (0..height).map(move |k| if k == r { one() } else { Poly::new() });
    let mut rows: Vec<Vec<Poly>> = matrix.rows.iter().enumerate().map(|(r, row)| row.iter().cloned().chain(unit(r)).collect()).collect();
    let mut used = vec![false; height];
    let mut work = Work { way, cells: Vec::new() };
    let mut prev = one();
    let mut free = None;
    for column in 0..matrix.width {
        let Some(place) = (0..height).find(|r| !used[*r] && !rows[*r][column].is_empty()) else {
            if column < matrix.certs {
                continue;
            }
            free = Some(column);
            break;
        };
        used[place] = true;
        let by = primitive_form(&prev);
        let pivot = std::mem::take(&mut rows[place]);
        for (r, row) in rows.iter_mut().enumerate() {
            if r != place {
                *row = other(&mut work, column, &pivot, &by, row)?;
                over_content(row);
            }
        }
        prev = pivot[column].clone();
        rows[place] = pivot;
    }
    Ok(Echelon { rows, pivots: used.iter().filter(|u| **u).count(), free })
}

// ---- the program

fn read_matrix(text: &str) -> Matrix {
    let mut numbers = text.split_whitespace().map(|word| word.parse::<i128>().expect("numbers"));
    let mut next = || numbers.next().expect("more numbers");
    let (certs, width, height) = (next() as usize, next() as usize, next() as usize);
    let mut polynomial = || {
        let count = next() as usize;
        let terms = (0..count).map(|_| {
            let exponents = std::array::from_fn(|_| next() as u16);
            Term { mono: Mono::of(&exponents), coef: next() }
        });
        terms.collect::<Poly>()
    };
    let rows = (0..height).map(|_| (0..width).map(|_| polynomial()).collect()).collect();
    Matrix { certs, width, rows }
}

/// The number of terms, and a sum that each coefficient and exponent changes.
fn digest(rows: &[Vec<Poly>]) -> (usize, u64) {
    let mixed = |sum: u64, n: u64| sum.wrapping_mul(6364136223846793005).wrapping_add(n);
    let (mut count, mut sum) = (0, 0u64);
    for p in rows.iter().flatten() {
        sum = mixed(sum, p.len() as u64);
        count += p.len();
        for t in p {
            sum = mixed(sum, t.coef as u64);
            sum = (0..NAMES).fold(sum, |sum, i| mixed(sum, t.mono.exponent(i) as u64));
        }
    }
    (count, sum)
}

fn main() {
    let words: Vec<String> = std::env::args().skip(1).collect();
    let way = match words.first().map(String::as_str) {
        Some("literal") => Way::Literal,
        Some("wide") => Way::Wide,
        _ => Way::Fused,
    };
    let rounds = words.get(1).and_then(|w| w.parse().ok()).unwrap_or(1);
    let mut text = String::new();
    std::io::stdin().read_to_string(&mut text).expect("a text");
    let matrix = read_matrix(&text);
    drop(text);
    let mut found = None;
    for _ in 0..rounds {
        found = Some(eliminate(way, &matrix));
    }
    match found {
        None => println!("nothing"),
        Some(Err(kind)) => println!("overflow {}", format!("{kind:?}").to_lowercase()),
        Some(Ok(e)) => {
            let (terms, sum) = digest(&e.rows);
            let free = e.free.map_or(-1, |column| column as i64);
            println!("pivots {} free {free} terms {terms} sum {sum}", e.pivots);
        }
    }
}
