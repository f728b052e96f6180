//! Products and exact divisions of polynomials and sums of fractions in plain Rust, with the same words as
//! `bench_division`: terms in falling order, products by halves that are merged, divisions in a box of cells where that is
//! small enough. In place of `multiply`, `cells` makes a product in cells too. In place of `divide`, `merging` merges the
//! rest with a multiple of the divisor in each step, and `copying` copies the rest and makes the multiple as a list first.
//! A sum is cleared by the other denominator, and each factor is divided out where it goes.
use std::cmp::Ordering;

/// How a division is done.
#[derive(Clone, Copy, PartialEq, Eq)]
enum Way {
    Cells,
    Merging,
    Copying,
}

#[derive(Clone, Copy, PartialEq, Eq)]
struct Term {
    mono: [u16; 6],
    coef: i128,
}

type Poly = Vec<Term>;

fn total(m: &[u16; 6]) -> u16 {
    m.iter().sum()
}

fn compare(m: &[u16; 6], n: &[u16; 6]) -> Ordering {
    total(m).cmp(&total(n)).then_with(|| m.cmp(n))
}

fn times(m: &[u16; 6], n: &[u16; 6]) -> [u16; 6] {
    std::array::from_fn(|i| m[i] + n[i])
}

fn over(m: &[u16; 6], n: &[u16; 6]) -> Option<[u16; 6]> {
    if m.iter().zip(n).any(|(a, b)| a < b) {
        return None;
    }
    Some(std::array::from_fn(|i| m[i] - n[i]))
}

fn norm(p: &[Term]) -> u128 {
    p.iter().map(|t| t.coef.unsigned_abs()).sum()
}

fn sum(mut p: &[Term], mut q: &[Term]) -> Poly {
    let mut out = Vec::with_capacity(p.len() + q.len());
    while let (Some((a, p_rest)), Some((b, q_rest))) = (p.split_first(), q.split_first()) {
        match compare(&a.mono, &b.mono) {
            Ordering::Greater => {
                out.push(*a);
                p = p_rest;
            }
            Ordering::Less => {
                out.push(*b);
                q = q_rest;
            }
            Ordering::Equal => {
                let coef = a.coef + b.coef;
                if coef != 0 {
                    out.push(Term { mono: a.mono, coef });
                }
                p = p_rest;
                q = q_rest;
            }
        }
    }
    out.extend_from_slice(p);
    out.extend_from_slice(q);
    out
}

fn multiple(t: &Term, p: &[Term]) -> Poly {
    p.iter()
        .map(|u| Term { mono: times(&t.mono, &u.mono), coef: t.coef * u.coef })
        .collect()
}

fn by_halves(p: &[Term], q: &[Term]) -> Poly {
    match p {
        [] => Vec::new(),
        [t] => multiple(t, q),
        _ => {
            let (front, back) = p.split_at(p.len() / 2);
            sum(&by_halves(front, q), &by_halves(back, q))
        }
    }
}

fn product(p: &[Term], q: &[Term]) -> Poly {
    if p.len() <= q.len() { by_halves(p, q) } else { by_halves(q, p) }
}

/// A list and a term times another list, merged.
fn with_multiple(mut p: &[Term], t: &Term, q: &[Term]) -> Poly {
    let mut out = Vec::with_capacity(p.len() + q.len());
    for u in q {
        let made = Term { mono: times(&t.mono, &u.mono), coef: t.coef * u.coef };
        loop {
            match p.split_first() {
                Some((a, rest)) => match compare(&a.mono, &made.mono) {
                    Ordering::Greater => {
                        out.push(*a);
                        p = rest;
                    }
                    Ordering::Equal => {
                        let coef = a.coef + made.coef;
                        if coef != 0 {
                            out.push(Term { mono: a.mono, coef });
                        }
                        p = rest;
                        break;
                    }
                    Ordering::Less => {
                        out.push(made);
                        break;
                    }
                },
                None => {
                    out.push(made);
                    break;
                }
            }
        }
    }
    out.extend_from_slice(p);
    out
}

const LARGEST: u128 = i128::MAX as u128;
const MOST_TERMS: usize = 1 << 20;
const MOST_CELLS: usize = 1 << 20;

/// A coefficient at the place of its monomial in a box.
#[derive(Clone, Copy)]
struct Spot {
    place: usize,
    coef: i128,
}

fn tops(ts: &[Term]) -> [u16; 6] {
    ts.iter().fold([0; 6], |tops, t| std::array::from_fn(|i| tops[i].max(t.mono[i])))
}

/// How many cells the box has, if they are few for that many terms.
fn cells_below(tops: &[u16; 6], terms: usize) -> Option<usize> {
    let most = MOST_CELLS.min(64 * (terms + 64));
    tops.iter().try_fold(1, |cells, top| {
        let cells = cells * (usize::from(*top) + 1);
        (cells <= most).then_some(cells)
    })
}

fn place(tops: &[u16; 6], mono: &[u16; 6]) -> usize {
    tops.iter().zip(mono).fold(0, |at, (top, e)| at * (usize::from(*top) + 1) + usize::from(*e))
}

fn mono_at(tops: &[u16; 6], place: usize) -> [u16; 6] {
    let mut left = place;
    let mut mono = [0; 6];
    for i in (0..6).rev() {
        let width = usize::from(tops[i]) + 1;
        mono[i] = (left % width) as u16;
        left /= width;
    }
    mono
}

fn spots(tops: &[u16; 6], ts: &[Term]) -> Vec<Spot> {
    ts.iter().map(|t| Spot { place: place(tops, &t.mono), coef: t.coef }).collect()
}

fn add_multiple(cells: &mut [i128], base: usize, coef: i128, spots: &[Spot]) {
    for s in spots {
        cells[base + s.place] += coef * s.coef;
    }
}

/// A quotient that is found in cells, one for each monomial of a box, from the highest down.
fn divide_in_cells(p: &[Term], f: &[Term]) -> Option<Poly> {
    let whole = tops(p);
    let room = over(&whole, &tops(f))?;
    let mut cells = vec![0; cells_below(&whole, p.len() + f.len())?];
    add_multiple(&mut cells, 0, 1, &spots(&whole, p));
    let divisor = spots(&whole, f);
    let lead = divisor.iter().copied().max_by_key(|s| s.place)?;
    let (p_norm, f_norm) = (norm(p), norm(f));
    let mut quotient = Poly::new();
    let mut quotient_norm = 0u128;
    for at in (0..cells.len()).rev() {
        let c = cells[at];
        if c == 0 {
            continue;
        }
        let base = at.checked_sub(lead.place)?;
        let mono = mono_at(&whole, base);
        over(&room, &mono)?;
        if c % lead.coef != 0 {
            return None;
        }
        let coef = c / lead.coef;
        quotient_norm += coef.unsigned_abs();
        let made = quotient_norm.checked_mul(f_norm)?;
        if made > LARGEST || p_norm + made > LARGEST || p.len() + (quotient.len() + 1) * f.len() > MOST_TERMS {
            return None;
        }
        add_multiple(&mut cells, base, -coef, &divisor);
        quotient.push(Term { mono, coef });
    }
    if cells.iter().any(|c| *c != 0) {
        return None;
    }
    quotient.sort_unstable_by(|t, u| compare(&u.mono, &t.mono));
    Some(quotient)
}

/// A product in one table of cells, which is read off and sorted, where the box of its monomials is small enough.
fn product_in_cells(p: &[Term], q: &[Term]) -> Option<Poly> {
    let whole = times(&tops(p), &tops(q));
    let mut cells = vec![0; cells_below(&whole, p.len() * q.len())?];
    let row = spots(&whole, q);
    for t in p {
        add_multiple(&mut cells, place(&whole, &t.mono), t.coef, &row);
    }
    let filled = cells.iter().enumerate().filter(|(_, c)| **c != 0);
    let mut out: Poly = filled.map(|(at, c)| Term { mono: mono_at(&whole, at), coef: *c }).collect();
    out.sort_unstable_by(|t, u| compare(&u.mono, &t.mono));
    Some(out)
}

/// The leading term of the rest over that of the divisor.
fn next_term(rest: &[Term], f: &[Term]) -> Option<Term> {
    let top = rest.first()?;
    let lead = f.first()?;
    let mono = over(&top.mono, &lead.mono)?;
    (top.coef % lead.coef == 0).then(|| Term { mono, coef: top.coef / lead.coef })
}

fn divide(p: &[Term], f: &[Term], way: Way) -> Option<Poly> {
    if way == Way::Cells && next_term(p, f).is_some() {
        if let Some(quotient) = divide_in_cells(p, f) {
            return Some(quotient);
        }
    }
    divide_by_steps(p, f, way == Way::Copying)
}

fn divide_by_steps(p: &[Term], f: &[Term], copies: bool) -> Option<Poly> {
    let f_norm = norm(f);
    let mut rest = p.to_vec();
    let mut quotient = Poly::new();
    let mut quotient_norm = 0u128;
    while let Some(u) = next_term(&rest, f) {
        let size = u.coef.unsigned_abs();
        let made = size.saturating_mul(f_norm);
        if rest.len() + f.len() > MOST_TERMS || made > LARGEST || norm(&rest) + made > LARGEST {
            return None;
        }
        let negative = Term { mono: u.mono, coef: -u.coef };
        rest = if copies {
            let copy = rest.clone();
            sum(&copy, &multiple(&negative, f))
        } else {
            with_multiple(&rest[1..], &negative, &f[1..])
        };
        quotient.push(u);
        quotient_norm += size;
    }
    (rest.is_empty() && quotient_norm <= LARGEST).then_some(quotient)
}

fn gcd(a: u128, b: u128) -> u128 {
    if b == 0 { a } else { gcd(b, a % b) }
}

fn content(p: &[Term]) -> u128 {
    p.iter().fold(0, |g, t| if g == 1 { 1 } else { gcd(t.coef.unsigned_abs(), g) })
}

/// The numerator of p/f + q/g, where f and g are different factors.
fn fraction_sum(p: &[Term], f: &[Term], q: &[Term], g: &[Term]) -> Poly {
    let mut n = sum(&product(p, g), &product(q, f));
    let (low, high) = if f.iter().map(|t| (t.mono, t.coef)).lt(g.iter().map(|t| (t.mono, t.coef))) { (f, g) } else { (g, f) };
    for factor in [low, high] {
        if let Some(quotient) = divide(&n, factor, Way::Cells) {
            n = quotient;
        }
    }
    assert!(content(&n) > 0);
    n
}

fn form(a: i128, b: i128, c: i128) -> Poly {
    let name = |i: usize, coef| Term { mono: std::array::from_fn(|j| u16::from(i == j)), coef };
    vec![name(0, a), name(1, b), name(2, c), Term { mono: [0; 6], coef: 1 }]
}

fn power(base: &[Term], n: u64) -> Poly {
    (0..n).fold(vec![Term { mono: [0; 6], coef: 1 }], |so_far, _| product(&so_far, base))
}

fn next(state: u64) -> u64 {
    state.wrapping_mul(6364136223846793005).wrapping_add(1442695040888963407)
}

fn below(state: u64, bound: u64) -> u64 {
    (state >> 11) % bound
}

/// The sum of terms that are drawn from a seed on, as `bench_division` draws them.
fn drawn(terms: u64, coefs: u64, names: u64, bound: u64, seed: u64) -> Poly {
    let mut state = seed;
    (0..terms).fold(Poly::new(), |so_far, _| {
        let mono = std::array::from_fn(|i| {
            if i < 3 {
                state = next(state);
            }
            if (i as u64) < names { below(state, bound) as u16 } else { 0 }
        });
        state = next(state);
        sum(&so_far, &[Term { mono, coef: i128::from(below(state, coefs) + 1) }])
    })
}

fn main() {
    let words: Vec<String> = std::env::args().skip(1).collect();
    let number = |i: usize, default: u64| words.get(i).and_then(|w| w.parse().ok()).unwrap_or(default);
    let mode = words.first().map_or("divide", |w| w.as_str());
    let (p, q) = match number(4, 0) {
        0 => (power(&form(1, 1, 1), number(1, 3)), power(&form(1, 2, 3), number(2, 2))),
        names => {
            let draw = |seed| drawn(number(1, 3), number(2, 2), names, number(5, 2), seed);
            (draw(1), draw(2))
        }
    };
    let whole = product(&p, &q);
    let mut found = None;
    for _ in 0..number(3, 1) {
        found = match mode {
            "multiply" => Some(product(&p, &q)),
            "cells" => Some(product_in_cells(&p, &q).unwrap_or_else(|| product(&p, &q))),
            "sum" => Some(fraction_sum(&p, &form(1, 1, 2), &q, &form(2, 1, 1))),
            "copying" => divide(&whole, &q, Way::Copying),
            "merging" => divide(&whole, &q, Way::Merging),
            _ => divide(&whole, &q, Way::Cells),
        };
    }
    match found {
        Some(found) => println!("{} terms, norm {}", found.len(), norm(&found)),
        None => println!("no quotient"),
    }
}
