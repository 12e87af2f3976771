//! geometry [CALLS]: every exported geometry call on random input, against the Rust to the bit, and both timed on the same inputs.
//! A call whose input is off the map, too many or no measure is held to the order 9, 10, 4, and to leaving all that was lent.

use bench::geometry::{CALLS, Call, Given, Lent, NO_ANSWER, carry_out, polyline};
use bench::{Rng, square_root, time};
use std::hint::black_box;
use vectormap_core::geometry::{Point2, Polyline3};

/// A coordinate: on a small grid, so that ties and points that coincide are common, or anywhere on the map; seldom at its edge or
/// any double.
fn coordinate(rng: &mut Rng, kind: u64) -> f64 {
    let any = rng.next();
    match (kind, any % 16) {
        (0, _) => (any >> 8) as f64 % 5.0 - 2.0,
        (1, 0) => -0.0,
        (1, 1) => 1e-9 * (1.0 + (any >> 32) as f64 / 4294967296.0),
        (2, 2) => 67108864.0,
        (3, 3) => [
            f64::NAN,
            f64::INFINITY,
            -67108864.00000001,
            f64::from_bits(any),
        ][(any >> 8) as usize % 4],
        (_, _) => {
            ((any >> 11) as f64 / 9007199254740992.0 - 0.5)
                * [20.0, 2000.0, 134217728.0][(any % 3) as usize]
        }
    }
}

/// Coordinates of a polyline, seldom of too many points or with a coordinate that is missing.
fn coordinates(rng: &mut Rng) -> Vec<f64> {
    let kind = rng.next() % 32;
    let points = match rng.next() % 16 {
        0 => rng.next() % 3,
        1 => 64,
        2 => 63 + rng.next() % 4,
        _ => 2 + rng.next() % 12,
    };
    let missing = if rng.next() % 32 == 0 {
        rng.next() % 3
    } else {
        0
    };
    let many = (points * 3).saturating_sub(missing);
    // a single fault among many coordinates, so that most are on the map
    let mut cs: Vec<f64> = (0..many).map(|_| coordinate(rng, kind % 3)).collect();
    if kind == 31 && many > 0 {
        let at = (rng.next() % many) as usize;
        cs[at] = coordinate(rng, 3);
    }
    cs
}

fn measure(rng: &mut Rng) -> f64 {
    match rng.next() % 16 {
        0 => f64::NAN,
        1 => f64::NEG_INFINITY,
        2 => f64::from_bits(rng.next()),
        3 => 0.0,
        4 => 1.0,
        _ => coordinate(rng, rng.0 % 3).abs() % [1.0, 40.0, 1e9][(rng.0 >> 8) as usize % 3],
    }
}

fn given(rng: &mut Rng, call: &Call) -> Given {
    let mut g = Given::default();
    let kind = rng.next() % 4;
    for t in call.takes.chars() {
        match t {
            'c' => g.doubles.push(coordinate(rng, kind)),
            'm' => g.doubles.push(measure(rng)),
            'n' => g.count = (rng.next() % 70) as usize,
            _ => g.lines.push(coordinates(rng)),
        }
    }
    g
}

/// No number and no word but those that the call may write has changed.
fn kept(before: &Lent, after: &Lent, reals: usize, word: bool) -> bool {
    let same = |a: &f64, b: &f64| a.to_bits() == b.to_bits();
    before.reals[reals..]
        .iter()
        .zip(&after.reals[reals..])
        .all(|(a, b)| same(a, b))
        && (word || before.word == after.word)
}

/// What one random call came to: its code, how many faults its input had, and whether it is what 01 and the Rust say.
fn tried(rng: &mut Rng, call: &Call) -> (u64, usize, bool) {
    let g = given(rng, call);
    let before = Lent {
        reals: std::array::from_fn(|_| f64::from_bits(rng.next())),
        word: rng.next(),
    };
    let mut after = before.clone();
    let code = carry_out(call.name, &g, &mut after);
    let faults = call.faults(&g);
    let many = faults.iter().filter(|f| **f).count();
    if let Some(first) = faults.iter().position(|f| *f) {
        let refused = code == [9, 10, 4][first];
        return (code, many, refused && kept(&before, &after, 0, false));
    }
    let (reals, word) = call.room();
    let right = match call.rust(&g) {
        None => code == NO_ANSWER && kept(&before, &after, 0, false),
        Some(said) => {
            code == 0 && call.written(&after) == said && kept(&before, &after, reals, word)
        }
    };
    (code, many, right)
}

/// A road's side: 64 points, a metre or so apart.
fn side(rng: &mut Rng, offset: f64) -> Vec<f64> {
    (0..64)
        .flat_map(|i| {
            let bend = (rng.next() >> 40) as f64 / 16777216.0;
            [i as f64 + bend * 0.3, offset + bend, bend * 0.1]
        })
        .collect()
}

/// The calls that are timed, on coordinates that are on the map.
fn timed(name: &str, g: &Given, lent: &mut Lent) -> u64 {
    assert_eq!(carry_out(name, black_box(g), lent), 0);
    lent.word
}

fn main() {
    let count: usize = std::env::args()
        .nth(1)
        .map_or(1_000_000, |n| n.parse().expect("a count"));
    let mut rng = Rng(11);
    let (mut differ, mut twice) = (0, 0);
    println!(
        "{:20} calls  answered  none     9    10     4  differences",
        ""
    );
    for call in &CALLS {
        let mut codes = [0; 255];
        let mut wrong = 0;
        for _ in 0..count / CALLS.len() {
            let (code, faults, right) = tried(&mut rng, call);
            twice += (faults > 1) as usize;
            codes[code.min(253 + (code == NO_ANSWER) as u64) as usize] += 1;
            wrong += !right as usize;
        }
        println!(
            "{:20} {:5} {:9} {:5} {:5} {:5} {:5} {wrong:12}",
            call.name,
            count / CALLS.len(),
            codes[0],
            codes[NO_ANSWER as usize],
            codes[9],
            codes[10],
            codes[4]
        );
        differ += wrong;
    }
    println!(
        "{} calls, {twice} of them with two faults or more, {differ} differences",
        count / CALLS.len() * CALLS.len()
    );
    let (l, r) = (side(&mut rng, 2.0), side(&mut rng, -2.0));
    let (a, b) = (polyline(&l), polyline(&r));
    let mut lent = Lent {
        reals: [0.0; 192],
        word: 0,
    };
    let p = Point2::new(31.7, 0.4);
    let of = |count: usize, doubles: &[f64], lines: &[&Vec<f64>]| Given {
        doubles: doubles.to_vec(),
        count,
        lines: lines.iter().map(|l| l.to_vec()).collect(),
    };
    let one = of(64, &[], &[&l]);
    let near = [of(0, &[p.x, p.y], &[&l]), of(0, &[p.x, p.y], &[&r])];
    let both = of(0, &[], &[&l, &r]);
    let mut middle = of(0, &[], &[&l]);
    let rows = [
        (
            "length",
            time(30, 1000, || {
                (0..1000).map(|_| black_box(&a).length()).sum::<f64>()
            }),
            time(30, 1000, || {
                (0..1000)
                    .map(|_| timed("length", &one, &mut lent))
                    .fold(0, u64::wrapping_add)
            }),
        ),
        (
            "nearest_point",
            time(30, 1000, || {
                (0..1000)
                    .map(|_| black_box(&a).nearest_point(p).unwrap().distance)
                    .sum::<f64>()
            }),
            time(30, 1000, || {
                (0..1000)
                    .map(|_| timed("nearest_point", &near[0], &mut lent))
                    .sum::<u64>()
            }),
        ),
        (
            "resample_count",
            time(30, 200, || {
                (0..200)
                    .map(|_| black_box(&a).resample_count(64).len())
                    .sum::<usize>()
            }),
            time(30, 200, || {
                (0..200)
                    .map(|_| timed("resample_count", &one, &mut lent))
                    .sum::<u64>()
            }),
        ),
        (
            "centerline",
            time(30, 100, || {
                (0..100)
                    .map(|_| Polyline3::centerline(black_box(&a), &b).unwrap().len())
                    .sum::<usize>()
            }),
            time(30, 100, || {
                (0..100)
                    .map(|_| timed("centerline", &both, &mut lent))
                    .sum::<u64>()
            }),
        ),
        // what a cross-section asks for: the centreline, its length, and the nearest points of both sides
        (
            "cross-section",
            time(30, 100, || {
                (0..100)
                    .map(|_| {
                        let center = Polyline3::centerline(black_box(&a), &b).unwrap();
                        center.length()
                            + a.nearest_point(p).unwrap().station
                            + b.nearest_point(p).unwrap().station
                    })
                    .sum::<f64>()
            }),
            time(30, 100, || {
                (0..100)
                    .map(|_| {
                        let count = timed("centerline", &both, &mut lent) as usize;
                        middle.lines[0].clear();
                        middle.lines[0].extend_from_slice(&lent.reals[..count * 3]);
                        timed("length", &middle, &mut lent);
                        let mut sum = lent.reals[0];
                        for side in &near {
                            timed("nearest_point", side, &mut lent);
                            sum += lent.reals[4];
                        }
                        sum
                    })
                    .sum::<f64>()
            }),
        ),
        (
            "root",
            time(30, 100_000, || {
                (0..100_000)
                    .map(|i| black_box(2.0 + i as f64).sqrt())
                    .sum::<f64>()
            }),
            time(30, 100_000, || {
                (0..100_000)
                    .map(|i| square_root(black_box(2.0 + i as f64)))
                    .sum::<f64>()
            }),
        ),
    ];
    println!("64 points        Rust ns   here ns   ratio");
    for (name, theirs, ours) in rows {
        println!("{name:15} {theirs:9.1} {ours:9.1} {:7.2}", ours / theirs);
    }
    if differ > 0 {
        std::process::exit(1);
    }
}
