//! squareRoot on patterns of all classes against the machine's root, and both timed.

use bench::{Rng, square_root, square_root_bits, time};

const NAN: u64 = 0x7FF8_0000_0000_0000;

const CLASSES: [&str; 6] = ["zero", "subnormal", "normal", "infinity", "negative", "NaN"];

fn class_of(b: u64) -> usize {
    let x = f64::from_bits(b);
    if x.is_nan() {
        5
    } else if x == 0.0 {
        0
    } else if x < 0.0 {
        4
    } else if x.is_infinite() {
        3
    } else if x.is_subnormal() {
        1
    } else {
        2
    }
}

/// A pattern of some class: exact squares and their neighbours, ends of the exponent's range, short mantissas, any bits.
fn pattern(rng: &mut Rng) -> u64 {
    let any = rng.next();
    match rng.next() % 8 {
        0 => any,
        1 => any >> 12,
        2 => any >> (12 + any % 52),
        3 => any % 4 << 62 | (any >> 2) % 8,
        4 => 0x7FF0_0000_0000_0000 | any >> 40,
        5 => {
            let r = (any >> 38) as f64;
            (r * r)
                .to_bits()
                .wrapping_add(rng.next() % 3)
                .wrapping_sub(1)
        }
        6 => any >> 1 & !(u64::MAX >> (12 + any % 40)),
        _ => any >> 1,
    }
}

fn expected(b: u64) -> u64 {
    let r = f64::from_bits(b).sqrt();
    if r.is_nan() { NAN } else { r.to_bits() }
}

fn main() {
    let count: usize = std::env::args()
        .nth(1)
        .map_or(3_000_000, |n| n.parse().expect("a count"));
    let mut rng = Rng(7);
    let mut hits = [0usize; 6];
    let mut differ = 0;
    for _ in 0..count {
        let b = pattern(&mut rng);
        hits[class_of(b)] += 1;
        let want = expected(b);
        let x = f64::from_bits(b);
        let by_value = square_root(x);
        let same = if want == NAN {
            by_value.is_nan()
        } else {
            by_value.to_bits() == want
        };
        if square_root_bits(b) != want || !same {
            differ += 1;
            println!("differs at {b:016x}");
        }
    }
    for (name, n) in CLASSES.iter().zip(hits) {
        println!("{name:10} {n}");
    }
    println!("{count} patterns, {differ} differences");

    let xs: Vec<f64> = (0..1 << 20)
        .map(|_| f64::from_bits(rng.next() >> 2 | 1 << 60))
        .collect();
    let ours = time(7, xs.len(), || {
        xs.iter().map(|&x| square_root(x)).sum::<f64>()
    });
    let machine = time(7, xs.len(), || xs.iter().map(|&x| x.sqrt()).sum::<f64>());
    println!(
        "root: {ours:.1} ns, the machine's {machine:.1} ns, ratio {:.1}",
        ours / machine
    );
    std::process::exit(if differ == 0 { 0 } else { 1 });
}
