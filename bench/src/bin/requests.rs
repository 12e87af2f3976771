//! Random geometry requests with the Rust's answers, in the form of the stored sample, for the program that replays it.

use bench::Rng;
use oracle::geometry::{Arg, FUNCTIONS, answer};
use std::io::Write;
use vectormap_core::geometry::{Point3, Polyline3};

/// On a small grid, near 1e-9, on the map, or seldom any double.
fn double(rng: &mut Rng, kind: u64) -> f64 {
    let any = rng.next();
    match (kind, any % 16) {
        (0, _) => (any >> 8) as f64 % 5.0 - 2.0,
        (1, 0) => -0.0,
        (1, 1) => 1e-9 * (1.0 + (any >> 32) as f64 / 4294967296.0),
        (2, 2) => f64::from_bits(any),
        _ => {
            ((any >> 11) as f64 / 9007199254740992.0 - 0.5)
                * [2.0, 20.0, 134217728.0][(any % 3) as usize]
        }
    }
}

fn polyline(rng: &mut Rng, kind: u64) -> Polyline3 {
    let points = match rng.next() % 16 {
        0 => rng.next() % 3,
        1 => 64,
        _ => 2 + rng.next() % 6,
    };
    let mut p = || Point3::new(double(rng, kind), double(rng, kind), double(rng, kind));
    Polyline3::new((0..points).map(|_| p()).collect())
}

fn argument(rng: &mut Rng, takes: char, kind: u64) -> Arg {
    match takes {
        'd' => Arg::Double(double(rng, kind)),
        'n' => Arg::Number(rng.next() % 65),
        _ => Arg::Polyline(polyline(rng, kind)),
    }
}

fn words(arg: &Arg) -> String {
    match arg {
        Arg::Double(v) => format!("{:016x}", v.to_bits()),
        Arg::Number(n) => n.to_string(),
        Arg::Polyline(l) => {
            let mut s = l.len().to_string();
            for p in &l.points {
                s += &format!(
                    " {:016x} {:016x} {:016x}",
                    p.x.to_bits(),
                    p.y.to_bits(),
                    p.z.to_bits()
                );
            }
            s
        }
    }
}

fn main() {
    let count: usize = std::env::args()
        .nth(1)
        .map_or(100_000, |n| n.parse().expect("a count"));
    let mut rng = Rng(5);
    let mut out = std::io::BufWriter::new(std::io::stdout().lock());
    for i in 0..count {
        let (name, takes) = FUNCTIONS[i % FUNCTIONS.len()];
        let kind = rng.next() % 3;
        let args: Vec<Arg> = takes.chars().map(|t| argument(&mut rng, t, kind)).collect();
        let answer = answer(name, &args);
        if answer != "panic" {
            let request: Vec<String> = args.iter().map(words).collect();
            writeln!(out, "geom {name} {}\n= {answer}", request.join(" "))
                .expect("standard output");
        }
    }
}
