//! The three edits beside the Rust's on the same maps in one run: medians of single calls on warm memory, the running fold
//! included on both sides, and validation's share by itself.

use bench::edits::{Args, Lent};
use oracle::codec::{FileMap, Lane, Line, Point, Rule, What, write_map};
use oracle::convert;
use oracle::edits::{Call, Choice, NewLight, NewLine, NewLinks, Placement, StopRule, run};
use oracle::fold::join;
use oracle::sample::crossing;
use std::hint::black_box;
use std::time::Instant;
use vectormap_core::ChangeSet;

const ROUNDS: usize = 2_001;

fn stop_line(lane: u64) -> Call {
    Call::Line(NewLine {
        lanes: vec![lane],
        placement: Placement::LaneEnd(0.0),
        rule: StopRule::Sign,
    })
}

fn light(lane: u64) -> Call {
    Call::Light(NewLight {
        lanes: vec![lane],
        choice: Choice::Auto,
        housing: None,
        height: None,
        pedestrian: false,
        bulbs: None,
        group: None,
    })
}

fn side(number: u64, y: f64, n: usize) -> Line {
    let at = |i: usize| -> Point {
        let x = i as f64 * 60.0 / (n - 1) as f64;
        [x, y + x * x / 400.0, 0.0]
    };
    Line {
        number,
        points: (0..n).map(at).collect(),
    }
}

fn lane(number: u64, left: u64, right: u64) -> Lane {
    Lane {
        number,
        kind: 0,
        left,
        left_reversed: false,
        right,
        right_reversed: false,
        centerline: None,
    }
}

/// One lane between two sides of 64 points.
fn long_lane() -> FileMap {
    FileMap {
        next: 4,
        lanes: vec![lane(3, 1, 2)],
        boundaries: vec![side(1, 2.0, 64), side(2, -2.0, 64)],
        ..FileMap::default()
    }
}

/// 64 lanes, 128 boundaries, 1,000 points and 101 rules; lane 1 has no rule.
fn large() -> FileMap {
    let mut map = FileMap {
        next: 1_000,
        ..FileMap::default()
    };
    for i in 0..64u64 {
        map.lanes.push(lane(1 + i, 200 + i * 2, 201 + i * 2));
        let y = i as f64 * 10.0;
        let n = if i < 52 { 8 } else { 7 };
        map.boundaries.push(side(200 + i * 2, y + 2.0, n));
        map.boundaries.push(side(201 + i * 2, y - 2.0, n));
    }
    for i in 0..101u64 {
        map.rules.push(Rule {
            number: 400 + i,
            what: What::Other { kind: 1 + i },
            lanes: vec![2 + i % 63],
            crosswalks: vec![],
        });
    }
    assert_eq!(map.point_count(), 1_000);
    map
}

fn median(mut times: Vec<f64>) -> f64 {
    times.sort_by(f64::total_cmp);
    times[times.len() / 2]
}

/// The map after a call.
fn after(file: &FileMap, call: &Call) -> FileMap {
    let mut map = convert::to_map(file);
    run(&mut map, call).unwrap();
    convert::from_map(&map)
}

fn rust_time(file: &FileMap, call: &Call) -> f64 {
    let map = convert::to_map(file);
    let once = || {
        let mut m = map.clone();
        let mut fold = ChangeSet::new();
        let start = Instant::now();
        let (n, set) = run(&mut m, call).unwrap();
        join(&mut fold, set);
        let t = start.elapsed().as_nanos() as f64;
        black_box((n, m, fold));
        t
    };
    median((0..ROUNDS).map(|_| once()).collect())
}

fn here_time(file: &FileMap, call: &Call) -> f64 {
    let args = Args::of(call);
    let opened = Lent::open(file);
    let mut lent = opened.clone();
    // only the words that a call alters are put back, so that the memory stays warm
    lent.call(&args);
    let altered: Vec<usize> = (0..opened.tables.words.len())
        .filter(|&i| lent.tables.words[i] != opened.tables.words[i])
        .collect();
    let mut once = || {
        for &i in &altered {
            lent.tables.words[i] = opened.tables.words[i];
        }
        lent.fold[..4].fill(0);
        lent.tally = [0; 3];
        let start = Instant::now();
        let answer = lent.call(&args);
        let t = start.elapsed().as_nanos() as f64;
        assert_eq!(answer[0], 0);
        t
    };
    let t = median((0..ROUNDS).map(|_| once()).collect());
    assert!(write_map(&lent.tables.map()) == write_map(&after(file, call)));
    t
}

/// A call that is refused by its first own check: what 12 and 13 cost.
fn checks_time(file: &FileMap) -> f64 {
    let none = Call::Line(NewLine {
        lanes: vec![],
        placement: Placement::LaneEnd(0.0),
        rule: StopRule::None,
    });
    let args = Args::of(&none);
    let mut lent = Lent::open(file);
    let mut once = || {
        let start = Instant::now();
        let answer = lent.call(&args);
        let t = start.elapsed().as_nanos() as f64;
        assert_eq!(answer[0], 1);
        t
    };
    median((0..ROUNDS).map(|_| once()).collect())
}

fn main() {
    println!("map        edit                      Rust ns   here ns   ratio   of it 12 and 13");
    for (name, file, lane) in [
        ("tiny", crossing(2.0), 3),
        ("large", large(), 1),
        ("long lane", long_lane(), 3),
    ] {
        let checks = checks_time(&file);
        let signed = after(&file, &stop_line(lane));
        let lit = after(&file, &light(lane));
        let rule = lit.rules.last().unwrap().number;
        let links = Call::Links(NewLinks {
            rule,
            lanes: vec![lane],
            crosswalks: vec![],
            lines: vec![],
        });
        for (edit, map, call) in [
            ("stop line at lane end", &file, stop_line(lane)),
            ("light draws", &file, light(lane)),
            ("light finds and lifts", &signed, light(lane)),
            ("links", &lit, links),
        ] {
            let rust = rust_time(map, &call);
            let here = here_time(map, &call);
            println!(
                "{name:<10} {edit:<25} {rust:>7.0}   {here:>7.0}   {:>5.2}   {checks:>7.0}",
                here / rust
            );
        }
    }
}
