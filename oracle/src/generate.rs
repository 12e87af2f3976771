//! Random runs: calls steered so that every refusal with every detail, and
//! every shape of accepted call, comes up often.

use std::collections::BTreeMap;
use std::io::{self, Write};

use crate::codec::{
    Bulb, FileMap, FileSet, MAX_ALL_POINTS, MAX_BULBS, MAX_COORDINATE, MAX_RULE_LIST, MAX_RULES,
    MAX_SIGNALS, MAX_STOP_LINES, Point, What, to_hex,
};
use crate::edits::{
    Call, Choice, End, Ends, NewLight, NewLine, NewLinks, Outcome, Placement, StopRule, refusal,
};
use crate::maps::{Size, random_map};
use crate::model::is_stop_rule_on;
use crate::protocol::{write_call, write_outcome, write_refusal};
use crate::rng::Rng;
use crate::run::{Run, Verdict};

/// A lane as a cross-section at its end finds it: 0 for good, else the detail
/// of refusal 6.
struct LaneClass {
    number: u64,
    detail: u64,
    length: f64,
}

/// Draws calls for one run. Lanes and boundaries never change in a run.
pub struct Caller {
    lanes: Vec<LaneClass>,
}

impl Caller {
    pub fn new(run: &Run) -> Self {
        let map = &run.map;
        let lanes = map
            .lanes()
            .map(|l| {
                let length = map.lane_length(l.id).unwrap_or(0.0);
                let detail = match map.cross_section(l.id, length, &[l.id]) {
                    Ok(_) => 0,
                    Err(e) => refusal(&e).details[0],
                };
                LaneClass {
                    number: l.id.0,
                    detail,
                    length,
                }
            })
            .collect();
        Caller { lanes }
    }

    fn of_detail(&self, detail: u64) -> Vec<u64> {
        let own = self.lanes.iter().filter(|l| l.detail == detail);
        own.map(|l| l.number).collect()
    }

    fn length(&self, lane: Option<&u64>) -> f64 {
        let own = self.lanes.iter().find(|l| Some(&l.number) == lane);
        own.map_or(0.0, |l| l.length)
    }

    pub fn call(&self, rng: &mut Rng, run: &Run) -> Call {
        match rng.below(100) {
            0..38 => Call::Line(self.line(rng, run)),
            38..74 => Call::Light(self.light(rng, run)),
            _ => Call::Links(links(rng, &run.file)),
        }
    }

    /// Mostly one to three good lanes; else what the lane checks refuse or
    /// the cross-section cannot use.
    fn lane_list(&self, rng: &mut Rng, map: &FileMap) -> Vec<u64> {
        let all: Vec<u64> = self.lanes.iter().map(|l| l.number).collect();
        let good = self.of_detail(0);
        let n = rng.pick(&[1, 1, 1, 2, 2, 3]);
        let mut out = match rng.below(20) {
            0..5 => rng.some_of(&all, n),
            5..8 => {
                // An odd lane in front, or behind a good one.
                let kinds: Vec<Vec<u64>> = (1..=5).map(|d| self.of_detail(d)).collect();
                let kinds: Vec<Vec<u64>> = kinds.into_iter().filter(|k| !k.is_empty()).collect();
                let odd = rng.pick_some(&kinds).unwrap_or_default();
                let odd = rng.some_of(&odd, 1);
                let mut out = rng.some_of(&good, n - 1);
                out.retain(|l| !odd.contains(l));
                if rng.percent(50) {
                    out.extend(odd);
                } else {
                    out.splice(0..0, odd);
                }
                out
            }
            8 if all.len() > 16 => {
                let many = rng.between(15, 18);
                rng.some_of(&all, many)
            }
            _ => rng.some_of(&good, n),
        };
        match rng.below(30) {
            0 => out.clear(),
            1 | 2 => {
                let at = rng.below(out.len() + 1);
                out.insert(at, stray(rng, map));
            }
            3 | 4 => {
                if let Some(l) = rng.pick_some(&out) {
                    let at = rng.below(out.len() + 1);
                    out.insert(at, l);
                }
            }
            5 => {
                // Unknown and twice at once.
                let l = stray(rng, map);
                out.push(l);
                out.push(l);
            }
            _ => {}
        }
        if out.is_empty() && !rng.percent(25) {
            out = rng.some_of(&all, 1);
        }
        out
    }

    fn placement(&self, rng: &mut Rng, run: &Run, lanes: &[u64]) -> Placement {
        let long = self.length(lanes.first());
        match rng.below(10) {
            0..4 => Placement::LaneEnd(match rng.below(12) {
                0..5 => 0.0,
                5 => rng.pick(&[-1.0, -1e-300, f64::NAN, f64::INFINITY, f64::NEG_INFINITY]),
                6 => rng.pick(&[-0.0, 5e-324, 1e-9, 1e300, f64::MAX]),
                7 => long + rng.pick(&[-1e-8, -5e-10, 0.0, 5e-10, 1e-9, 1.1e-9, 1e-8]),
                8 => long + rng.range(0.0, 30.0),
                _ => rng.range(0.0, long.max(1.0)),
            }),
            4..8 => Placement::Station(match rng.below(12) {
                0 => 0.0,
                1 => long,
                2 => rng.pick(&[f64::NAN, f64::INFINITY, f64::NEG_INFINITY]),
                3 => rng.pick(&[-0.0, 5e-324, -5e-324, 1e300, -f64::MAX, -1.0]),
                4 => long + rng.pick(&[-1e-8, -5e-10, 5e-10, 1e-9, 1.1e-9, 1e-8]),
                5 => rng.pick(&[-5e-10, -1e-9, -1.000_000_1e-9, -1.1e-9, 5e-10, -1e-8]),
                6 => long + rng.range(0.0, 30.0),
                _ => rng.unit() * long,
            }),
            _ => Placement::Given(given(rng, &run.file)),
        }
    }

    fn line(&self, rng: &mut Rng, run: &Run) -> NewLine {
        let lanes = self.lane_list(rng, &run.file);
        NewLine {
            placement: self.placement(rng, run, &lanes),
            rule: match rng.below(5) {
                0..2 => StopRule::Sign,
                2..4 => StopRule::Marking,
                _ => StopRule::None,
            },
            lanes,
        }
    }

    fn light(&self, rng: &mut Rng, run: &Run) -> NewLight {
        let map = &run.file;
        let mut lanes = self.lane_list(rng, map);
        let mut choice = None;
        if rng.percent(25)
            && let Some((line, own)) = stop_rule(rng, map)
        {
            // A stop rule to be lifted for some or all of its lanes.
            let known: Vec<u64> = own.into_iter().filter(|l| map.lane(*l).is_some()).collect();
            let mut part = vec![];
            for l in known {
                if !part.contains(&l) && rng.percent(80) {
                    part.push(l);
                }
            }
            if !part.is_empty() {
                lanes = part;
                choice = Some(if rng.percent(70) {
                    Choice::Existing(line)
                } else {
                    Choice::Auto
                });
            }
        }
        let coming = map.next.max(1);
        let waiting: Vec<Vec<u64>> = map
            .rules
            .iter()
            .filter(|r| is_stop_rule_on(r, coming))
            .map(|r| r.lanes.clone())
            .collect();
        if rng.percent(50)
            && let Some(own) = rng.pick_some(&waiting)
        {
            // A rule that names the line to be drawn.
            let good = self.of_detail(0);
            lanes = rng.some_of(&good, 2);
            for l in own {
                if map.lane(l).is_some() && !lanes.contains(&l) {
                    lanes.push(l);
                }
            }
            choice = Some(Choice::New(self.placement(rng, run, &lanes)));
        }
        let group = if rng.percent(35) {
            Some(group(rng, map))
        } else {
            None
        };
        let own = group.and_then(|g| map.rule(g)).and_then(|r| match &r.what {
            What::Light { line, .. } => *line,
            _ => None,
        });
        let choice = choice.unwrap_or_else(|| match rng.below(20) {
            0..7 => Choice::Auto,
            7..12 => Choice::Existing(match (own, rng.below(10)) {
                (Some(s), 0..5) => s,
                (_, 5) => stray(rng, map),
                (_, 6) => {
                    let empty = map.stop_lines.iter().filter(|s| s.points.is_empty());
                    let empty: Vec<u64> = empty.map(|s| s.number).collect();
                    rng.pick_some(&empty).unwrap_or(0)
                }
                _ => {
                    let all: Vec<u64> = map.stop_lines.iter().map(|s| s.number).collect();
                    rng.pick_some(&all).unwrap_or(0)
                }
            }),
            12..17 => Choice::New(self.placement(rng, run, &lanes)),
            _ => Choice::None,
        });
        NewLight {
            choice,
            housing: if rng.percent(35) {
                Some(given(rng, map))
            } else {
                None
            },
            height: match rng.below(14) {
                0..7 => None,
                7 => Some(rng.pick(&[0.0, -0.0, -1.0, f64::NAN, f64::INFINITY])),
                8 => Some(rng.pick(&[5e-324, 1e-300, 1e7, 1e300, f64::MAX])),
                _ => Some(rng.range(0.1, 2.0)),
            },
            pedestrian: rng.percent(30),
            bulbs: if rng.percent(30) {
                Some(bulbs(rng, map))
            } else {
                None
            },
            group,
            lanes,
        }
    }
}

/// A number of no lane, line or rule; or of a record of another kind.
fn stray(rng: &mut Rng, map: &FileMap) -> u64 {
    let other: Vec<u64> = map
        .boundaries
        .iter()
        .map(|b| b.number)
        .chain(map.signals.iter().map(|s| s.number))
        .collect();
    match rng.below(6) {
        0 => map.next,
        1 => map.next.saturating_add(1),
        2 => 0,
        3 => rng.bits(),
        4 => u64::MAX,
        _ => rng.pick_some(&other).unwrap_or(9),
    }
}

fn around(rng: &mut Rng, map: &FileMap) -> Point {
    let ends: Vec<Point> = map
        .boundaries
        .iter()
        .filter_map(|b| b.points.last().copied())
        .collect();
    let p = rng.pick_some(&ends).unwrap_or([0.0; 3]);
    [
        p[0] + rng.range(-5.0, 5.0),
        p[1] + rng.range(-5.0, 5.0),
        p[2] + rng.pick(&[0.0, 5.0, 5.5]),
    ]
}

/// Points for a line or a housing, good and bad.
fn given(rng: &mut Rng, map: &FileMap) -> Vec<Point> {
    let p = around(rng, map);
    let n = rng.pick(&[2, 2, 2, 2, 3, 5]);
    let mut line: Vec<Point> = (0..n).map(|_| around(rng, map)).collect();
    match rng.below(30) {
        0 => line.clear(),
        1 => line.truncate(1),
        2 => line = vec![p; 3],
        3 => {
            let step = rng.pick(&[9e-10, 1e-9, 1.1e-9, 5e-10, 2e-9]);
            line = vec![[0.0, 0.0, 0.0], [step, 0.0, 0.0]];
        }
        4 | 5 => {
            let at = rng.below(line.len());
            let c = rng.below(3);
            line[at][c] = rng.pick(&[f64::NAN, f64::INFINITY, f64::NEG_INFINITY]);
        }
        6 => {
            // Beyond the map, or just on its edge.
            let at = rng.below(line.len());
            let edge = MAX_COORDINATE;
            line[at][rng.below(3)] = rng.pick(&[edge, -edge, edge.next_up(), 1e9, -1e300]);
        }
        7 => {
            let n = rng.pick(&[64, 64, 65, 66]);
            line = (0..n).map(|i| [p[0] + f64::from(i), p[1], p[2]]).collect();
        }
        8 => line = vec![[-0.0, 2.0, -0.0], [-0.0, -2.0, 0.0]],
        _ => {}
    }
    line
}

fn bulb(rng: &mut Rng, map: &FileMap) -> Bulb {
    let mut at = around(rng, map);
    if rng.percent(2) {
        at[rng.below(3)] = rng.pick(&[f64::NAN, f64::INFINITY, 1e8, -1e300]);
    }
    Bulb {
        at,
        color: rng.below(4) as u8,
        arrow: rng.below(9) as u8,
    }
}

fn bulbs(rng: &mut Rng, map: &FileMap) -> Vec<Bulb> {
    let n = rng.pick(&[0, 1, 2, 3, 4, 4, 5]);
    let mut out: Vec<Bulb> = (0..n).map(|_| bulb(rng, map)).collect();
    if n > MAX_BULBS {
        // Drawn aside: no such light is ever accepted, and the runs that a
        // seed gives stay as they are.
        more_bulbs(&mut Rng::new(rng.clone().bits()), map, &mut out);
    }
    out
}

/// Up to twelve lamps in all; in half of the lists one past the fourth is
/// spoilt, so that 9 is to be asked of it before 10.
fn more_bulbs(rng: &mut Rng, map: &FileMap, out: &mut Vec<Bulb>) {
    for _ in 0..rng.pick(&[0, 0, 1, 3, 7]) {
        out.push(bulb(rng, map));
    }
    let edge = MAX_COORDINATE;
    let late = rng.between(MAX_BULBS, out.len() - 1);
    match rng.below(10) {
        0..2 => out[late].at[rng.below(3)] = rng.pick(&[edge, -edge]),
        2..5 => out[late].at[rng.below(3)] = rng.pick(&[edge.next_up(), -edge.next_up(), 1e8]),
        5..7 => out[late].at[rng.below(3)] = rng.pick(&[f64::NAN, f64::INFINITY, -f64::INFINITY]),
        _ => {}
    }
}

/// A marking or stop sign on a line that is there, with lanes.
fn stop_rule(rng: &mut Rng, map: &FileMap) -> Option<(u64, Vec<u64>)> {
    let all: Vec<(u64, Vec<u64>)> = map
        .rules
        .iter()
        .filter_map(|r| match &r.what {
            What::Marking { line }
            | What::Sign {
                line: Some(line), ..
            } => Some((*line, r.lanes.clone())),
            _ => None,
        })
        .filter(|(line, lanes)| map.stop_line(*line).is_some() && !lanes.is_empty())
        .collect();
    rng.pick_some(&all)
}

/// A group: mostly a light, else what refusal 7 or 2 is about.
fn group(rng: &mut Rng, map: &FileMap) -> u64 {
    let of = |controls: bool, light: bool| -> Vec<u64> {
        let own = map.rules.iter().filter(|r| {
            let is_light = matches!(r.what, What::Light { .. });
            r.crosswalks.is_empty() != controls && (controls || is_light == light)
        });
        own.map(|r| r.number).collect()
    };
    let found = match rng.below(16) {
        0..3 => rng.pick_some(&of(true, false)),
        3 | 4 => rng.pick_some(&of(false, false)),
        5 => None,
        _ => rng.pick_some(&of(false, true)),
    };
    found.unwrap_or_else(|| stray(rng, map))
}

fn links(rng: &mut Rng, map: &FileMap) -> NewLinks {
    let lanes: Vec<u64> = map.lanes.iter().map(|l| l.number).collect();
    let crosswalks: Vec<u64> = map.crosswalks.iter().map(|c| c.number).collect();
    let lines: Vec<u64> = map.stop_lines.iter().map(|s| s.number).collect();
    let editable: Vec<_> = map
        .rules
        .iter()
        .filter(|r| {
            matches!(
                r.what,
                What::Light { .. } | What::Crosswalk { .. } | What::Marking { .. }
            )
        })
        .collect();
    let rule = match rng.below(20) {
        0 => None,
        1..3 => {
            let all: Vec<_> = map.rules.iter().collect();
            rng.pick_some(&all)
        }
        _ => rng.pick_some(&editable),
    };
    let Some(rule) = rule else {
        return NewLinks {
            rule: stray(rng, map),
            lanes: rng.some_of(&lanes, 2),
            crosswalks: vec![],
            lines: rng.some_of(&lines, 1),
        };
    };
    let n = rng.between(0, 3);
    let mut new = NewLinks {
        rule: rule.number,
        lanes: rng.some_of(&lanes, n),
        crosswalks: vec![],
        lines: vec![],
    };
    match &rule.what {
        What::Light { signals, line } => {
            let pedestrian = signals
                .iter()
                .filter_map(|s| map.signal(*s))
                .any(|s| s.pedestrian);
            if pedestrian {
                new.lanes.clear();
                new.crosswalks = rng.some_of(&crosswalks, n);
            } else if rng.percent(60) {
                new.lines = rng.some_of(&lines, 1);
            }
            if rng.percent(8) {
                new.crosswalks = rng.some_of(&crosswalks, 1);
            }
            if rng.percent(10) {
                new.lines = rng.some_of(&lines, 2);
            }
            if rng.percent(30) {
                // As it stands, in another order.
                new.lanes = rule.lanes.clone();
                new.crosswalks = rule.crosswalks.clone();
                new.lines = line.iter().copied().collect();
                rng.shuffle(&mut new.lanes);
            }
        }
        What::Crosswalk { lines: own, .. } => {
            new.lines = rng.some_of(&lines, n);
            if rng.percent(30) {
                new.crosswalks = rng.some_of(&crosswalks, 1);
            }
            if rng.percent(30) {
                new.lanes = rule.lanes.clone();
                new.lines = own.clone();
                rng.shuffle(&mut new.lines);
            }
        }
        What::Marking { line } => {
            new.lines = vec![*line];
            if rng.percent(30) {
                new.lanes = rule.lanes.clone();
            }
        }
        _ => new.lines = rng.some_of(&lines, n),
    }
    let faults = rng.pick(&[0, 0, 0, 0, 1, 1, 1, 2]);
    for _ in 0..faults {
        match rng.below(9) {
            0 => twice(rng, &mut new.lanes),
            1 => twice(rng, &mut new.crosswalks),
            2 => twice(rng, &mut new.lines),
            3 => new.lanes.push(stray(rng, map)),
            4 => new.crosswalks.push(stray(rng, map)),
            5 => new.lines.push(stray(rng, map)),
            6 => new.crosswalks = rng.some_of(&crosswalks, 2),
            7 => new.lines = rng.some_of(&lines, 2),
            _ => {
                let n = rng.pick(&[1, 2, 16, 17]);
                new.lanes = rng.some_of(&lanes, n);
            }
        }
    }
    new
}

fn twice(rng: &mut Rng, list: &mut Vec<u64>) {
    match rng.pick_some(list) {
        Some(n) => {
            let at = rng.below(list.len() + 1);
            list.insert(at, n);
        }
        None => {
            let n = rng.bits() % 20;
            list.extend([n, n]);
        }
    }
}

// ------------------------------------------------------------------ tables

/// How often each answer came up.
#[derive(Default)]
pub struct Tally {
    pub calls: usize,
    pub refused: BTreeMap<(u8, u64), usize>,
    pub shapes: BTreeMap<String, usize>,
    pub left_out: BTreeMap<String, usize>,
    pub disagreements: Vec<String>,
}

/// Every refusal that the Rust can give, with the detail that tells cases
/// apart (a kind for 2).
pub fn all_refusals() -> Vec<(u8, u64)> {
    let mut all = vec![(1, 0), (2, 1), (2, 5), (2, 6), (2, 7), (2, 8)];
    for (number, details) in [(3, 3), (4, 3), (5, 2), (6, 6), (7, 3), (8, 8)] {
        all.extend((1..=details).map(|d| (number, d)));
    }
    all
}

impl Tally {
    /// A call, the map before it, and the run as it left it.
    pub fn note(&mut self, call: &Call, before: &FileMap, run: &Run, verdict: &Verdict) {
        match verdict {
            Verdict::LeftOut(reason, _) => {
                *self.left_out.entry(reason.name().into()).or_default() += 1;
                return;
            }
            Verdict::Disagree(both) => {
                let text = format!("{} -> {both:?}", write_call(call));
                self.disagreements.push(text);
                return;
            }
            Verdict::Answer(Outcome::Refused(r)) => {
                let detail = r.details.first().copied().unwrap_or(0);
                *self.refused.entry((r.number, detail)).or_default() += 1;
            }
            Verdict::Answer(Outcome::Done { set, ends, .. }) => {
                let mut all = shapes(call, before, set);
                all.extend(at_ceiling(before, &run.file));
                if let Some(ends) = ends {
                    all.extend(end_shapes(before, ends, &run.rivals));
                }
                for s in all {
                    *self.shapes.entry(s).or_default() += 1;
                }
            }
            Verdict::Answer(Outcome::Panic) => unreachable!("a panic is left out or a finding"),
        }
        self.calls += 1;
    }

    pub fn print(&self, to: &mut dyn Write) -> io::Result<()> {
        writeln!(to, "{} calls", self.calls)?;
        for (number, detail) in all_refusals() {
            let n = self.refused.get(&(number, detail)).copied().unwrap_or(0);
            let detail = if detail == 0 {
                String::new()
            } else {
                format!("/{detail}")
            };
            writeln!(to, "refused {number}{detail}: {n}")?;
        }
        for (shape, n) in &self.shapes {
            writeln!(to, "done {shape}: {n}")?;
        }
        for (reason, n) in &self.left_out {
            writeln!(to, "left out {reason}: {n}")?;
        }
        for d in self.disagreements.iter().take(5) {
            writeln!(to, "disagree {d}")?;
        }
        writeln!(to, "{} disagreements", self.disagreements.len())
    }

    /// The refusals that came up less than `least` times.
    pub fn rare(&self, least: usize) -> Vec<(u8, u64)> {
        let mut all = all_refusals();
        all.retain(|r| self.refused.get(r).copied().unwrap_or(0) < least);
        all
    }
}

/// The ceilings that an accepted call has just reached.
fn at_ceiling(before: &FileMap, after: &FileMap) -> Vec<String> {
    let counts = |m: &FileMap| {
        [
            m.stop_lines.len(),
            m.signals.len(),
            m.rules.len(),
            m.point_count(),
        ]
    };
    let most = [MAX_STOP_LINES, MAX_SIGNALS, MAX_RULES, MAX_ALL_POINTS];
    let names = ["stop lines", "signals", "rules", "points"];
    let (old, new) = (counts(before), counts(after));
    let full = (0..4).filter(|i| old[*i] < new[*i] && new[*i] == most[*i]);
    full.map(|i| format!("reaches {} {}", most[i], names[i]))
        .collect()
}

/// What the names of a drawn line's ends are like. A tie: another side lies as
/// far out as the one that is named.
fn end_shapes(map: &FileMap, ends: &Ends, rivals: &[Vec<End>; 2]) -> Vec<String> {
    let boundary = |end: End| {
        let lane = map.lane(end.lane).expect("a lane of the list");
        if end.side == 0 { lane.left } else { lane.right }
    };
    let pairs = || {
        let named = ends.iter().zip(rivals);
        named.flat_map(|(end, others)| others.iter().map(move |o| (*end, *o)))
    };
    let [left, right] = rivals.each_ref().map(|r| !r.is_empty());
    let mut out = vec!["ends"];
    for (holds, name) in [
        (left || right, "ends, tie"),
        (left && right, "ends, tie at both"),
        (left && !right, "ends, tie at the left only"),
        (right && !left, "ends, tie at the right only"),
        (
            pairs().any(|(e, o)| o.lane < e.lane),
            "ends, tie won against a lane of a lower number",
        ),
        (
            pairs().any(|(e, o)| o.lane > e.lane),
            "ends, tie won against a lane of a higher number",
        ),
        (
            pairs().any(|(e, o)| o.lane == e.lane),
            "ends, tie within a lane",
        ),
        (
            pairs().any(|(e, o)| o.side < e.side),
            "ends, tie of a right side with a left one",
        ),
        (
            pairs().any(|(e, o)| boundary(e) == boundary(o)),
            "ends, tie on one boundary",
        ),
        (
            pairs().any(|(e, o)| boundary(e) != boundary(o)),
            "ends, tie of two boundaries",
        ),
        (
            boundary(ends[0]) == boundary(ends[1]),
            "ends, both on one boundary",
        ),
        (ends[0].side == 1, "ends, the left one on a right side"),
        (ends[1].side == 0, "ends, the right one on a left side"),
        (ends[0].lane != ends[1].lane, "ends, of two lanes"),
    ] {
        if holds {
            out.push(name);
        }
    }
    out.into_iter().map(String::from).collect()
}

fn placement_name(p: &Placement) -> &'static str {
    match p {
        Placement::LaneEnd(_) => "lane end",
        Placement::Station(_) => "station",
        Placement::Given(_) => "given",
    }
}

/// The names under which an accepted call is counted.
fn shapes(call: &Call, before: &FileMap, set: &FileSet) -> Vec<String> {
    let clamped = if set.warnings.iter().any(|w| w.code == 1) {
        ", clamped"
    } else {
        ""
    };
    match call {
        Call::Line(line) => {
            let place = placement_name(&line.placement);
            let mut out = vec![format!("line, {place}, {:?}{clamped}", line.rule)];
            if line.lanes.len() > MAX_RULE_LIST {
                out.push("line, more than 16 lanes".into());
            }
            out
        }
        Call::Light(light) => {
            let drawn = set.created.iter().any(|r| r.kind == 5);
            let choice = match &light.choice {
                Choice::Auto if drawn => "automatic, drawn".into(),
                Choice::Auto => "automatic, found".into(),
                Choice::Existing(_) => "existing".into(),
                Choice::New(p) => format!("new at {}{clamped}", placement_name(p)),
                Choice::None => "no line".to_string(),
            };
            let mut out = vec![format!("light, {choice}")];
            let group = light.group.and_then(|g| before.rule(g));
            if let Some(What::Light { line, .. }) = group.map(|r| &r.what) {
                let own = if line.is_some() { "with" } else { "without" };
                out.push(format!("light, group {own} a line, {choice}"));
            }
            if light.housing.is_some() {
                out.push("light, housing given".into());
            }
            if light.bulbs.is_some() {
                out.push("light, bulbs given".into());
            }
            if light.height.is_some() {
                out.push("light, height given".into());
            }
            if light.pedestrian {
                out.push("light, pedestrian".into());
            }
            if before.rules.len() == MAX_RULES && light.group.is_none() {
                out.push("light, 128 rules before and after".into());
            }
            let lifted = set.warnings.iter().filter(|w| w.code == 4).count();
            if lifted > 0 {
                let gone = set.deleted.len();
                if gone > 0 {
                    out.push("light, lifts and deletes".into());
                }
                if lifted > gone {
                    out.push("light, lifts and modifies".into());
                }
                if drawn {
                    out.push("light, lifts on a line just drawn".into());
                }
                if lifted > 1 {
                    out.push("light, lifts several".into());
                }
            }
            out
        }
        Call::Links(links) => {
            let what = match before.rule(links.rule).map(|r| &r.what) {
                Some(What::Light { .. }) => "light",
                Some(What::Crosswalk { .. }) => "crosswalk",
                _ => "marking",
            };
            let how = if set.modified.is_empty() {
                "unchanged"
            } else {
                "modified"
            };
            vec![format!("links, {what}, {how}")]
        }
    }
}

// -------------------------------------------------------------------- runs

/// How runs are written.
#[derive(Debug, Clone, Copy, Default)]
pub struct Form {
    /// Map files by their hash.
    pub brief: bool,
    /// Left-out calls too, with 01's answer behind `out`.
    pub left_out: bool,
}

/// One run as protocol text: the map, then each call with its answer, then
/// the map file at the end. Left-out calls are counted, and not written
/// unless the form asks for them.
pub fn write_run(
    rng: &mut Rng,
    size: Size,
    calls: usize,
    form: Form,
    tally: &mut Tally,
    out: &mut dyn Write,
) -> io::Result<Vec<FileSet>> {
    let file = random_map(rng, size);
    let mut run = Run::open(file);
    let caller = Caller::new(&run);
    writeln!(out, "map {}\n= ok", to_hex(&run.map_bytes()))?;
    let mut sets = vec![];
    for _ in 0..calls {
        let call = caller.call(rng, &run);
        let before = run.file.clone();
        let verdict = run.call(&call);
        tally.note(&call, &before, &run, &verdict);
        if let Verdict::Answer(outcome) = &verdict {
            let text = write_outcome(outcome, &run, form.brief);
            writeln!(out, "{}\n= {text}", write_call(&call))?;
            if let Outcome::Done { set, .. } = outcome {
                sets.push(set.clone());
            }
        }
        if let Verdict::LeftOut(_, refusal) = &verdict
            && form.left_out
        {
            let text = write_refusal("out", refusal);
            writeln!(out, "{}\n= {text}", write_call(&call))?;
        }
    }
    writeln!(out, "file\n= {}", to_hex(&run.map_bytes()))?;
    Ok(sets)
}

/// Runs of 1 to 40 calls.
pub fn generate(
    seed: u64,
    runs: usize,
    size: Option<Size>,
    form: Form,
    out: &mut dyn Write,
) -> io::Result<Tally> {
    let mut rng = Rng::new(seed);
    let mut tally = Tally::default();
    writeln!(out, "{}\n= ok", if form.brief { "brief" } else { "full" })?;
    for _ in 0..runs {
        let size = size.unwrap_or_else(|| Size::mixed(&mut rng));
        let calls = rng.between(1, 40);
        write_run(&mut rng, size, calls, form, &mut tally, out)?;
    }
    Ok(tally)
}
