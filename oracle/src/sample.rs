//! The fixed samples of this repository. The same text comes out each time.

use std::collections::BTreeMap;
use std::io::{self, Write};
use std::path::Path;

use vectormap_core as vm;

use crate::codec::*;
use crate::generate::{Form, Tally, write_run};
use crate::geometry::{self, Arg, FUNCTIONS};
use crate::maps::{Size, random_map};
use crate::protocol::{Server, write_call, write_geometry};
use crate::rng::Rng;
use crate::{convert, edits};

const SEED: u64 = 20_261_003;
const RUNS: usize = 165;
/// Runs on lanes laid on one another.
const SHARED_RUNS: usize = 15;
/// Every refusal with every detail comes up at least this often.
const LEAST: usize = 8;

/// Writes the samples into a directory and says what they hold.
pub fn write_all(dir: &Path) -> io::Result<Vec<String>> {
    let mut notes = vec![];
    let mut put = |name: &str, (text, count): (Vec<u8>, usize)| -> io::Result<()> {
        notes.push(format!("{name}: {count} answers, {} bytes", text.len()));
        std::fs::write(dir.join(name), text)
    };
    put("calls.txt", calls()?)?;
    put("geometry.txt", geometry_calls()?)?;
    put("folds.txt", folds()?)?;
    put("files.txt", files()?)?;
    Ok(notes)
}

/// Requests with their answers.
struct Script {
    server: Server,
    out: Vec<u8>,
    count: usize,
}

impl Script {
    fn new() -> Self {
        Script {
            server: Server::default(),
            out: vec![],
            count: 0,
        }
    }

    fn note(&mut self, text: &str) -> io::Result<()> {
        writeln!(self.out, "# {text}")
    }

    fn ask(&mut self, request: &str) -> io::Result<String> {
        let answer = self.server.answer(request);
        assert!(!answer.starts_with("error"), "{request}: {answer}");
        assert!(!answer.starts_with("disagree"), "{request}: {answer}");
        writeln!(self.out, "{request}\n= {answer}")?;
        self.count += 1;
        Ok(answer)
    }

    fn done(self) -> (Vec<u8>, usize) {
        (self.out, self.count)
    }
}

// ------------------------------------------------------------------- calls

/// The map of the worked crossings, with boundaries at y and -y.
pub fn crossing(y: f64) -> FileMap {
    let line = |number, y| Line {
        number,
        points: vec![[0.0, y, 0.0], [10.0, y, 0.0]],
    };
    FileMap {
        next: 4,
        lanes: vec![Lane {
            number: 3,
            kind: 0,
            left: 1,
            left_reversed: false,
            right: 2,
            right_reversed: false,
            centerline: None,
        }],
        boundaries: vec![line(1, y), line(2, -y)],
        ..FileMap::default()
    }
}

/// Two lanes whose left sides begin on the centre, 4's at 0 and 5's at -0, and
/// whose right side is one boundary.
pub fn zeros() -> FileMap {
    let line = |number, from, to| Line {
        number,
        points: vec![[0.0, from, 0.0], [10.0, to, 0.0]],
    };
    let lane = |number, left| Lane {
        number,
        kind: 0,
        left,
        left_reversed: false,
        right: 3,
        right_reversed: false,
        centerline: Some(vec![[0.0; 3], [10.0, 0.0, 0.0]]),
    };
    FileMap {
        next: 6,
        lanes: vec![lane(4, 1), lane(5, 2)],
        boundaries: vec![line(1, 0.0, 0.0), line(2, -0.0, -1.0), line(3, -3.0, -3.0)],
        ..FileMap::default()
    }
}

/// A stop sign across the lanes.
pub fn stop_sign(lanes: &[u64], placement: edits::Placement) -> edits::Call {
    edits::Call::Line(edits::NewLine {
        lanes: lanes.to_vec(),
        placement,
        rule: edits::StopRule::Sign,
    })
}

/// A vehicle light with all defaults.
pub fn plain_light(lanes: &[u64]) -> edits::Call {
    edits::Call::Light(edits::NewLight {
        lanes: lanes.to_vec(),
        choice: edits::Choice::Auto,
        housing: None,
        height: None,
        pedestrian: false,
        bulbs: None,
        group: None,
    })
}

fn calls() -> io::Result<(Vec<u8>, usize)> {
    use edits::Placement::{LaneEnd, Station};
    let mut s = Script::new();
    let open = |y: f64| format!("map {}", to_hex(&write_map(&crossing(y))));
    s.ask("full")?;
    s.note("The worked crossings of 01: P1, P2, P3.")?;
    s.ask(&open(2.0))?;
    s.ask(&write_call(&stop_sign(&[3], LaneEnd(0.0))))?;
    s.ask(&write_call(&plain_light(&[3])))?;
    s.ask("fold")?;
    s.ask("tally")?;
    for (note, call) in [
        ("P4", stop_sign(&[3], LaneEnd(12.0))),
        ("P5", stop_sign(&[3], LaneEnd(10.0))),
        ("P6", stop_sign(&[3], LaneEnd(-1.0))),
        ("P7", stop_sign(&[9, 3, 3], LaneEnd(0.0))),
        (
            "Clamped, no warning",
            stop_sign(&[3], Station(10.0000000005)),
        ),
        ("Warned", stop_sign(&[3], Station(10.00000001))),
    ] {
        s.note(note)?;
        s.ask(&open(2.0))?;
        s.ask(&write_call(&call))?;
    }
    s.note("P8")?;
    for y in [0.0005, 0.00051] {
        s.ask(&open(y))?;
        s.ask(&write_call(&stop_sign(&[3], LaneEnd(0.0))))?;
    }

    s.note("Random runs on small maps. Map files after a call are given by their hash.")?;
    s.ask("brief")?;
    let (runs, tally) = runs()?;
    s.out.extend(runs);
    s.count += tally.calls + 2 * RUNS;

    s.note("Ends at 0 and at -0 are equally far out.")?;
    for lanes in [[4, 5], [5, 4]] {
        s.ask(&format!("map {}", to_hex(&write_map(&zeros()))))?;
        s.ask(&write_call(&stop_sign(&lanes, Station(0.0))))?;
    }
    s.note("Random runs on lanes laid on one another.")?;
    let mut rng = Rng::new(SEED + 4);
    let mut tally = Tally::default();
    for _ in 0..SHARED_RUNS {
        let calls = rng.between(10, 40);
        let out = &mut s.out;
        write_run(&mut rng, Size::Shared, calls, BRIEF, &mut tally, out)?;
    }
    assert!(tally.disagreements.is_empty());
    s.count += tally.calls + 2 * SHARED_RUNS;
    Ok(s.done())
}

const BRIEF: Form = Form {
    brief: true,
    left_out: false,
};

/// The runs of the first seed that brings up every refusal often enough.
fn runs() -> io::Result<(Vec<u8>, Tally)> {
    for seed in SEED..SEED + 100 {
        let mut rng = Rng::new(seed);
        let mut tally = Tally::default();
        let mut out = vec![];
        for _ in 0..RUNS {
            let calls = rng.between(1, 40);
            write_run(&mut rng, Size::Small, calls, BRIEF, &mut tally, &mut out)?;
        }
        assert!(tally.disagreements.is_empty(), "seed {seed}");
        if tally.rare(LEAST).is_empty() {
            return Ok((out, tally));
        }
    }
    panic!("some refusal is rare with every seed")
}

// ------------------------------------------------------------------- folds

fn refs(rng: &mut Rng, most: usize, numbers: u64) -> [Vec<Ref>; 3] {
    // A map from entry to list, so that no entry is in two lists.
    let mut all = BTreeMap::new();
    for _ in 0..rng.between(0, most) {
        let r = Ref {
            kind: rng.between(1, 8) as u8,
            number: rng.bits() % numbers,
        };
        all.insert(r, rng.below(3));
    }
    let list = |n| {
        let own = all.iter().filter(|(_, l)| **l == n);
        own.map(|(r, _)| *r).collect()
    };
    [list(0), list(1), list(2)]
}

/// An arbitrary set file's content.
pub fn random_set(rng: &mut Rng, most: usize, numbers: u64) -> FileSet {
    let [created, modified, deleted] = refs(rng, most, numbers);
    let warnings = (0..rng.pick(&[0, 0, 1, 2, 5]))
        .map(|_| Warning {
            code: rng.between(1, 4) as u8,
            entity: match rng.below(9) as u8 {
                0 => None,
                kind => Some(Ref {
                    kind,
                    number: rng.bits() >> rng.below(64),
                }),
            },
        })
        .collect();
    FileSet {
        created,
        modified,
        deleted,
        warnings,
    }
}

fn folds() -> io::Result<(Vec<u8>, usize)> {
    let mut s = Script::new();
    let mut rng = Rng::new(SEED + 1);
    let join = |s: &mut Script, set: &FileSet| {
        s.ask(&format!("join {}", to_hex(&write_set(set))))
            .map(|_| ())
    };
    s.note("Sets of runs.")?;
    let mut tally = Tally::default();
    for _ in 0..25 {
        let calls = rng.between(10, 40);
        let mut unused = io::sink();
        let sets = write_run(
            &mut rng,
            Size::Small,
            calls,
            Form::default(),
            &mut tally,
            &mut unused,
        )?;
        s.ask("sets")?;
        for set in &sets {
            join(&mut s, set)?;
        }
    }
    s.note("An entry created, deleted, modified, created again, in every order.")?;
    let entry = vec![Ref { kind: 8, number: 5 }];
    let step = |what: usize| {
        let mut set = FileSet::default();
        match what {
            0 => set.created = entry.clone(),
            1 => set.modified = entry.clone(),
            _ => set.deleted = entry.clone(),
        }
        set
    };
    for order in 0..27 {
        s.ask("sets")?;
        for what in [order / 9, order / 3 % 3, order % 3] {
            join(&mut s, &step(what))?;
        }
    }
    s.note("Arbitrary sets of few entries, so that they meet.")?;
    for _ in 0..40 {
        s.ask("sets")?;
        for _ in 0..rng.between(2, 8) {
            let numbers = rng.pick(&[2, 4, 9]);
            let set = random_set(&mut rng, 14, numbers);
            join(&mut s, &set)?;
        }
    }
    s.note("Large numbers, long lists, and a list above the ceiling (refused 10).")?;
    s.ask("sets")?;
    for _ in 0..6 {
        let set = random_set(&mut rng, 60, u64::MAX);
        join(&mut s, &set)?;
    }
    let long = |from: u64, n: u64| FileSet {
        created: (from..from + n)
            .map(|number| Ref { kind: 5, number })
            .collect(),
        ..FileSet::default()
    };
    s.ask("sets")?;
    join(&mut s, &long(0, 500))?;
    join(&mut s, &long(500, 12))?;
    join(&mut s, &long(512, 1))?;
    let back = FileSet {
        deleted: long(0, 512).created,
        ..FileSet::default()
    };
    join(&mut s, &back)?;
    join(&mut s, &long(512, 1))?;
    Ok(s.done())
}

// ------------------------------------------------------------------- files

fn files() -> io::Result<(Vec<u8>, usize)> {
    let mut s = Script::new();
    let mut rng = Rng::new(SEED + 2);
    s.note("Map files and set files, whole and spoilt. 01 alone decides on these.")?;
    let small = write_map(&crossing(2.0));
    for n in 0..=small.len() {
        if n < 20 || n + 6 > small.len() || n % 9 == 0 {
            s.ask(&format!("map {}", hex_or_none(&small[..n])))?;
        }
    }
    let mut maps = 0;
    while maps < 60 {
        let bytes = write_map(&random_map(&mut rng, Size::Small));
        if bytes.len() > 700 {
            continue;
        }
        maps += 1;
        s.ask(&format!("map {}", to_hex(&bytes)))?;
        for _ in 0..4 {
            s.ask(&format!("map {}", to_hex(&spoil(&mut rng, &bytes))))?;
        }
    }
    for map in past_ceilings() {
        s.ask(&format!("map {}", to_hex(&write_map(&map))))?;
    }
    for text in [
        "00000000000000",
        "0000000000",
        "8000000000000000",
        "ffffffffffffffffff01000000000000",
        "ffffffffffffffffff02000000000000",
        "ffffffffffffffffffff01000000000000",
    ] {
        s.ask(&format!("map {text}"))?;
    }
    for _ in 0..80 {
        let bytes = write_set(&random_set(&mut rng, 10, 40));
        s.ask(&format!("set {}", to_hex(&bytes)))?;
        for _ in 0..3 {
            s.ask(&format!("set {}", to_hex(&spoil(&mut rng, &bytes))))?;
        }
    }
    for (entries, warnings) in [(512, 160), (513, 0), (0, 161)] {
        let set = FileSet {
            created: (0..entries).map(|number| Ref { kind: 1, number }).collect(),
            warnings: vec![
                Warning {
                    code: 3,
                    entity: None
                };
                warnings
            ],
            ..FileSet::default()
        };
        s.ask(&format!("set {}", to_hex(&write_set(&set))))?;
    }
    Ok(s.done())
}

/// A token must not be empty: no bytes are written as `-`.
fn hex_or_none(bytes: &[u8]) -> String {
    if bytes.is_empty() {
        "-".into()
    } else {
        to_hex(bytes)
    }
}

/// One small change: a byte, a bit, a byte more or less, a longer number.
fn spoil(rng: &mut Rng, bytes: &[u8]) -> Vec<u8> {
    let mut out = bytes.to_vec();
    let at = if rng.percent(50) {
        rng.below(out.len().min(24))
    } else {
        rng.below(out.len())
    };
    match rng.below(6) {
        0 => out[at] ^= 1 << rng.below(8),
        1 => out[at] = rng.bits() as u8,
        2 => {
            out.remove(at);
            if out.is_empty() {
                out.push(0);
            }
        }
        3 => out.insert(at, rng.bits() as u8),
        4 => out.push(0),
        _ => {
            // Where a number ends here, the same number in a longer form.
            out[at] |= 0x80;
            out.insert(at + 1, 0);
        }
    }
    out
}

/// Maps at a ceiling and one past it.
fn past_ceilings() -> Vec<FileMap> {
    let mut out = vec![];
    let p = [1.0, 2.0, 3.0];
    for n in [64, 65] {
        let lane = |number| Lane {
            number,
            kind: 7,
            left: 900,
            left_reversed: true,
            right: 0,
            right_reversed: false,
            centerline: None,
        };
        let lanes = (0..n).map(lane).collect();
        out.push(with(|m| m.lanes = lanes));
        let line = |number| Line {
            number,
            points: vec![],
        };
        out.push(with(|m| m.stop_lines = (0..n).map(line).collect()));
        let points = vec![p; n as usize];
        out.push(with(|m| m.boundaries = vec![Line { number: 8, points }]));
        let signal = |number| Signal {
            number,
            pedestrian: true,
            housing: vec![],
            height: None,
            bulbs: vec![],
        };
        out.push(with(|m| m.signals = (0..n).map(signal).collect()));
    }
    for n in [128, 129] {
        let line = |number| Line {
            number,
            points: vec![],
        };
        out.push(with(|m| m.boundaries = (0..n).map(line).collect()));
        let rule = |number| Rule {
            number,
            what: What::Other { kind: 1 },
            lanes: vec![],
            crosswalks: vec![],
        };
        out.push(with(|m| m.rules = (0..n).map(rule).collect()));
    }
    for n in [32, 33] {
        let crosswalk = |number| Crosswalk {
            number,
            left: vec![],
            right: vec![],
            outline: None,
        };
        out.push(with(|m| m.crosswalks = (0..n).map(crosswalk).collect()));
    }
    for n in [16, 17] {
        let rule = |what, lanes, crosswalks| Rule {
            number: 3,
            what,
            lanes,
            crosswalks,
        };
        let many: Vec<u64> = vec![5; n];
        let signals = many.clone();
        let light = What::Light {
            signals,
            line: None,
        };
        for r in [
            rule(light, vec![], vec![]),
            rule(What::Marking { line: 1 }, many.clone(), vec![]),
            rule(What::Marking { line: 1 }, vec![], many),
        ] {
            out.push(with(|m| m.rules = vec![r.clone()]));
        }
    }
    for n in [4, 5] {
        let bulb = Bulb {
            at: p,
            color: 3,
            arrow: 8,
        };
        let signal = Signal {
            number: 3,
            pedestrian: false,
            housing: vec![],
            height: Some(-0.0),
            bulbs: vec![bulb; n],
        };
        out.push(with(|m| m.signals = vec![signal.clone()]));
    }
    for last in [64, 65] {
        // 16 lines of 64 points are 1,024.
        let line = |number| Line {
            number,
            points: vec![[0.0; 3]; 64],
        };
        let extra = vec![p; last - 64];
        out.push(with(|m| {
            m.boundaries = (0..16).map(line).collect();
            m.stop_lines = vec![Line {
                number: 1,
                points: extra,
            }];
        }));
    }
    for c in [
        MAX_COORDINATE,
        MAX_COORDINATE.next_up(),
        -MAX_COORDINATE,
        f64::NAN,
        f64::INFINITY,
        -0.0,
        5e-324,
    ] {
        let points = vec![[0.0, c, 0.0]];
        out.push(with(|m| m.stop_lines = vec![Line { number: 1, points }]));
    }
    for h in [f64::MAX, -1.0, f64::NAN, f64::INFINITY] {
        let signal = Signal {
            number: 3,
            pedestrian: false,
            housing: vec![],
            height: Some(h),
            bulbs: vec![],
        };
        out.push(with(|m| m.signals = vec![signal.clone()]));
    }
    for number in [999, 1000] {
        let points = vec![];
        out.push(with(|m| m.stop_lines = vec![Line { number, points }]));
    }
    out
}

fn with(fill: impl FnOnce(&mut FileMap)) -> FileMap {
    let mut map = FileMap {
        next: 1000,
        ..FileMap::default()
    };
    fill(&mut map);
    map
}

// ---------------------------------------------------------------- geometry

/// Which inputs a geometry call gets.
#[derive(Clone, Copy, PartialEq, Eq)]
enum Reach {
    /// Finite and within 2^26, at most 64 points: what 01's calls answer.
    Map,
    /// Any doubles and counts: the functions themselves are total.
    Any,
}

fn value(rng: &mut Rng, reach: Reach) -> f64 {
    if reach == Reach::Any && rng.percent(25) {
        return rng.pick(&[
            f64::NAN,
            f64::INFINITY,
            f64::NEG_INFINITY,
            1e200,
            -1e200,
            1e308,
            f64::MAX,
            1.5e154,
            f64::from_bits(0xfff0_0000_0000_0001),
        ]);
    }
    match rng.below(16) {
        0..5 => rng.between(0, 20) as f64 - 10.0,
        5 => 0.0,
        6 => -0.0,
        7 => rng.pick(&[1e-9, -1e-9, 9.9e-10, 1.1e-9, 1e-10, 1e-3, 5e-10]),
        8 => rng.pick(&[5e-324, -5e-324, f64::MIN_POSITIVE, 1e-160, -1e-170, 2e-308]),
        9 => rng.pick(&[MAX_COORDINATE, -MAX_COORDINATE, 67_108_863.999, 1e7]),
        10 => rng.range(-1.0, 1.0),
        11 => rng.range(-6e7, 6e7),
        _ => rng.range(-200.0, 200.0),
    }
}

fn point(rng: &mut Rng, reach: Reach) -> Point {
    [value(rng, reach), value(rng, reach), value(rng, reach)]
}

/// A polyline of one of the shapes that matter. `long` gives 64 points.
fn polyline(rng: &mut Rng, reach: Reach, long: bool) -> Vec<Point> {
    if long {
        let (step, bend) = (rng.range(0.2, 5.0), rng.range(-0.02, 0.02));
        let flat = rng.percent(30);
        return (0..64)
            .map(|i| {
                let x = step * f64::from(i);
                if flat {
                    [f64::from(i), 0.0, 0.0]
                } else {
                    [x, bend * x * x, 0.1 * x]
                }
            })
            .collect();
    }
    let p = point(rng, Reach::Map);
    let near = |d: [f64; 3]| [p[0] + d[0], p[1] + d[1], p[2] + d[2]];
    let line = match rng.below(14) {
        0 => vec![],
        1 => vec![p],
        2 => vec![p; 3],
        // A square: the centre is as near to each side.
        3 => vec![
            [0.0, 0.0, 0.0],
            [4.0, 0.0, 0.0],
            [4.0, 4.0, 0.0],
            [0.0, 4.0, 0.0],
            [0.0, 0.0, 0.0],
        ],
        // Zero segments in front, in between and at the end.
        4 => {
            let q = near([3.0, 0.0, 0.0]);
            vec![p, p, q, q, near([3.0, 4.0, 0.0]), near([3.0, 4.0, 0.0])]
        }
        // Upright segments have a length and no direction.
        5 => vec![p, near([0.0, 0.0, 2.0]), near([1.0, 0.0, 2.0])],
        6 => vec![near([1.0, 0.0, 0.0]), p, near([0.0, 0.0, 2.0])],
        7 => {
            let d = rng.pick(&[1e-9, 0.9e-9, 1.1e-9, 1e-10, 1e-170]);
            vec![[0.0; 3], [d, 0.0, 0.0], [d, d, 0.0]]
        }
        8 => (0..rng.between(2, 6))
            .map(|i| [-0.0, 2.0 * i as f64, -0.0])
            .collect(),
        9 => vec![[0.0, 2.0, 0.0], [10.0, 2.0, 0.0]],
        10 => vec![p, near([10.0, 0.0, 0.0]), p],
        _ => (0..rng.between(2, 8)).map(|_| point(rng, reach)).collect(),
    };
    let held = |c: f64| {
        if reach == Reach::Map {
            c.clamp(-MAX_COORDINATE, MAX_COORDINATE)
        } else {
            c
        }
    };
    line.into_iter().map(|p| p.map(held)).collect()
}

fn station(rng: &mut Rng, reach: Reach, line: &[Point]) -> f64 {
    let own = convert::polyline(line);
    let long = own.length();
    let stations = own.stations();
    let s = match rng.below(12) {
        0 => 0.0,
        1 => -0.0,
        2 => -rng.range(0.0, 5.0),
        3 => long,
        4 => long.next_up(),
        5 => long.next_down(),
        6 => long + rng.pick(&[1e-9, -1e-9, 5.0]),
        // Just at a point of the line.
        7 | 8 => rng.pick_some(&stations).unwrap_or(1.0),
        9 if reach == Reach::Any => value(rng, reach),
        _ => rng.unit() * long,
    };
    if reach == Reach::Map && !s.is_finite() {
        1.0
    } else {
        s
    }
}

fn fraction(rng: &mut Rng, reach: Reach) -> f64 {
    match rng.below(10) {
        0 => 0.0,
        1 => 1.0,
        2 => -0.0,
        3 => rng.pick(&[-0.5, 1.5, 5e-324, 1.0f64.next_down(), 1.0f64.next_up()]),
        4 => rng.pick(&[0.5 / 3.0, 1.5 / 3.0, 2.5 / 3.0, 0.25, 0.75, 0.5]),
        5 if reach == Reach::Any => value(rng, reach),
        _ => rng.unit(),
    }
}

/// A query beside a line: at its points, between them, as near to several.
fn query(rng: &mut Rng, reach: Reach, line: &[Point]) -> [f64; 2] {
    let some = rng.pick_some(line).unwrap_or([0.0; 3]);
    match rng.below(8) {
        0 => [some[0], some[1]],
        1 => [2.0, 2.0],
        2 => [2.0 + rng.pick(&[4e-10, -4e-10, 2e-9]), 2.0],
        3 => [
            some[0] + rng.range(-3.0, 3.0),
            some[1] + rng.range(-3.0, 3.0),
        ],
        4 => [5.0, -1.0],
        5 => [some[0], some[1] + 1e-9],
        _ => [value(rng, reach), value(rng, reach)],
    }
}

fn arguments(rng: &mut Rng, name: &str, takes: &str, reach: Reach, long: bool) -> Vec<Arg> {
    let doubles = |vs: &[f64]| vs.iter().map(|v| Arg::Double(*v)).collect::<Vec<_>>();
    let line = polyline(rng, reach, long);
    let shape = Arg::Polyline(convert::polyline(&line));
    match name {
        "clamp" => {
            // Bounds in order: the Rust panics on others.
            let (mut low, mut high) = (value(rng, Reach::Map), value(rng, Reach::Map));
            if low > high {
                (low, high) = (high, low);
            }
            let v = match rng.below(6) {
                0 => low,
                1 => high,
                2 => low.next_down(),
                3 => high.next_up(),
                _ => value(rng, reach),
            };
            doubles(&[v, low, high])
        }
        "lerp2" | "lerp3" => {
            let n = takes.len() - 1;
            let mut vs: Vec<f64> = (0..n).map(|_| value(rng, reach)).collect();
            vs.push(fraction(rng, reach));
            doubles(&vs)
        }
        "normalized2" if rng.percent(50) => {
            let t = rng.pick(&[1e-9, 1e-9f64.next_up(), 1e-9f64.next_down(), 7e-10, 8e-10]);
            if rng.percent(50) {
                doubles(&[t, 0.0])
            } else {
                doubles(&[t, -t])
            }
        }
        "project_on_segment" => {
            let a = [value(rng, reach), value(rng, reach)];
            let d = match rng.below(4) {
                0 => [rng.pick(&[1e-9, 9.9e-10, 1.1e-9]), 0.0],
                1 => [0.0, 0.0],
                _ => [rng.range(-9.0, 9.0), rng.range(-9.0, 9.0)],
            };
            let b = [a[0] + d[0], a[1] + d[1]];
            let p = if rng.percent(40) {
                [a[0] + rng.range(-5.0, 5.0), a[1] + rng.range(-5.0, 5.0)]
            } else {
                query(rng, reach, &line)
            };
            doubles(&[p[0], p[1], a[0], a[1], b[0], b[1]])
        }
        "locate" | "point_at" | "direction_at" => {
            vec![Arg::Double(station(rng, reach, &line)), shape]
        }
        "point_at_fraction" => vec![Arg::Double(fraction(rng, reach)), shape],
        "nearest_point" => {
            let q = query(rng, reach, &line);
            vec![Arg::Double(q[0]), Arg::Double(q[1]), shape]
        }
        "resample_count" => {
            let n = match rng.below(8) {
                0 => 0,
                1 => 1,
                2 => 64,
                3 if reach == Reach::Any => 65,
                _ => rng.between(2, 9) as u64,
            };
            vec![Arg::Number(n), shape]
        }
        "centerline" => {
            let other = if long && rng.percent(50) {
                let shift = rng.range(1.0, 4.0);
                line.iter().map(|p| [p[0], p[1] + shift, p[2]]).collect()
            } else {
                polyline(rng, reach, false)
            };
            vec![shape, Arg::Polyline(convert::polyline(&other))]
        }
        _ => takes
            .chars()
            .map(|kind| match kind {
                'd' => Arg::Double(value(rng, reach)),
                _ => shape.clone(),
            })
            .collect(),
    }
}

fn in_reach(args: &[Arg]) -> bool {
    let good = |v: f64| v.is_finite() && v.abs() <= MAX_COORDINATE;
    args.iter().all(|a| match a {
        Arg::Double(v) => good(*v),
        Arg::Number(n) => *n <= 64,
        Arg::Polyline(vm::Polyline3 { points }) => {
            points.len() <= 64 && points.iter().all(|p| good(p.x) && good(p.y) && good(p.z))
        }
    })
}

/// Inputs just on, above and below what the functions test for.
fn edge_cases() -> Vec<(&'static str, Vec<Arg>)> {
    let d = Arg::Double;
    let line = |points: &[Point]| Arg::Polyline(convert::polyline(points));
    let tiny = 1e-9f64;
    let mut out = vec![];
    for t in [tiny.next_down(), tiny, tiny.next_up()] {
        // 1e-9 squared is the least squared length that is projected on.
        let ds = |vs: &[f64]| vs.iter().map(|v| d(*v)).collect::<Vec<_>>();
        out.push(("project_on_segment", ds(&[5e-10, 0.0, 0.0, 0.0, t, 0.0])));
        out.push(("project_on_segment", ds(&[0.0, 1.0, 0.0, 0.0, 0.0, t])));
        out.push(("normalized2", ds(&[t, 0.0])));
        out.push(("normalized2", ds(&[0.0, -t])));
        let short = [[0.0; 3], [0.0, t, 0.0]];
        out.push(("is_valid", vec![line(&short)]));
        out.push(("direction_at", vec![d(0.0), line(&short)]));
        out.push(("nearest_point", vec![d(0.0), d(5e-10), line(&short)]));
        // A second segment nearer by just that much.
        let two = [[-1.0, 1.0, 0.0], [1.0, 1.0, 0.0], [1.0, t - 1.0, 0.0]];
        out.push(("nearest_point", vec![d(0.0), d(0.0), line(&two)]));
        let corner = [[-1.0, 1.0, 0.0], [1.0, 1.0, 0.0], [1.0 - t, -1.0, 0.0]];
        out.push(("nearest_point", vec![d(0.0), d(0.0), line(&corner)]));
    }
    let square = [
        [0.0, 0.0, 1.0],
        [4.0, 0.0, 1.0],
        [4.0, 4.0, 1.0],
        [0.0, 4.0, 1.0],
        [0.0, 0.0, 1.0],
    ];
    for (x, y) in [(2.0, 2.0), (3.0, 3.0), (1.0, 3.0), (4.0, 4.0), (5.0, 5.0)] {
        out.push(("nearest_point", vec![d(x), d(y), line(&square)]));
    }
    // Steep and upright parts: lengths are in space, directions in the plane.
    let steep = [
        [0.0, 0.0, 0.0],
        [0.0, 0.0, 3.0],
        [0.0, 4.0, 3.0],
        [0.0, 4.0, 9.0],
    ];
    for station in [0.0, 1.0, 3.0, 5.0, 7.0, 8.0, 13.0, 20.0] {
        out.push(("locate", vec![d(station), line(&steep)]));
        out.push(("point_at", vec![d(station), line(&steep)]));
        out.push(("direction_at", vec![d(station), line(&steep)]));
    }
    let none: [Point; 0] = [];
    let one = [[1.0, -0.0, 3.0]];
    let same = [[1.0, 2.0, 3.0]; 2];
    let two = [[0.0, -0.0, 0.0], [10.0, 0.0, 2.0]];
    let few: [&[Point]; 4] = [&none, &one, &same, &two];
    for left in few {
        for name in ["length", "is_valid", "stations", "reversed"] {
            out.push((name, vec![line(left)]));
        }
        for station in [-1.0, -0.0, 0.0, 5e-324, 1.0] {
            out.push(("locate", vec![d(station), line(left)]));
            out.push(("point_at", vec![d(station), line(left)]));
            out.push(("point_at_fraction", vec![d(station), line(left)]));
            out.push(("direction_at", vec![d(station), line(left)]));
        }
        for count in [0, 1, 2, 3, 64] {
            out.push(("resample_count", vec![Arg::Number(count), line(left)]));
        }
        out.push(("nearest_point", vec![d(1.0), d(1.0), line(left)]));
        for right in few {
            out.push(("centerline", vec![line(left), line(right)]));
        }
    }
    for (v, low, high) in [
        (-0.0, 0.0, 1.0),
        (0.0, -0.0, 1.0),
        (0.0, -1.0, -0.0),
        (-0.0, 0.0, 0.0),
        (f64::NAN, 0.0, 1.0),
        (f64::INFINITY, 0.0, 1.0),
        (f64::NEG_INFINITY, 0.0, 1.0),
        (5.0, 0.0, -0.0),
        (-5.0, -0.0, 0.0),
    ] {
        out.push(("clamp", vec![d(v), d(low), d(high)]));
    }
    out
}

fn geometry_calls() -> io::Result<(Vec<u8>, usize)> {
    let mut s = Script::new();
    let mut rng = Rng::new(SEED + 3);
    for (reach, each, note) in [
        (
            Reach::Map,
            60,
            "Doubles finite and within 2^26, at most 64 points: what 01's calls answer.",
        ),
        (
            Reach::Any,
            25,
            "Any doubles and counts: the functions behind those calls are total.",
        ),
    ] {
        s.note(note)?;
        for (name, takes) in FUNCTIONS {
            let mut done = 0;
            while done < each {
                let long = takes.contains('p') && done % 15 == 14;
                let args = arguments(&mut rng, name, takes, reach, long);
                if reach == Reach::Map && !in_reach(&args) {
                    continue;
                }
                assert_ne!(geometry::answer(name, &args), "panic", "{name} {args:?}");
                s.ask(&write_geometry(name, &args))?;
                done += 1;
            }
        }
    }
    s.note("Cases at the edge of a test, one by one.")?;
    for (name, args) in edge_cases() {
        s.ask(&write_geometry(name, &args))?;
    }
    s.note("Published squareRoot values, and roots at the ends of the range.")?;
    for v in [
        0.0,
        -0.0,
        2.0,
        5e-324,
        f64::MIN_POSITIVE,
        f64::MIN_POSITIVE.next_down(),
        f64::MAX,
        f64::INFINITY,
        f64::NEG_INFINITY,
        -5e-324,
        -1.0,
        f64::NAN,
        1.0f64.next_up(),
        1.0f64.next_down(),
        4.0f64.next_down(),
        1e-18,
        0.25,
        1e308,
    ] {
        s.ask(&write_geometry("root", &[Arg::Double(v)]))?;
    }
    for _ in 0..200 {
        // Every exponent is as likely; every tenth operand is subnormal.
        let bits = rng.bits() & 0x7fff_ffff_ffff_ffff;
        let bits = if rng.percent(10) {
            (bits & 0x000f_ffff_ffff_ffff) >> rng.below(52)
        } else {
            bits
        };
        s.ask(&write_geometry(
            "root",
            &[Arg::Double(f64::from_bits(bits))],
        ))?;
    }
    Ok(s.done())
}
