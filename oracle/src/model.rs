//! 01's own answer to an edit, worked out from its text over the plain file
//! records, refusals 9 to 11 included. It shares no code with the supplied
//! Rust: where both must agree and do not, the oracle says so aloud.
//!
//! Its use is to tell which inputs are left out of the runs, and to check the
//! order of refusals that 01 gives.

use crate::codec::*;
use crate::edits::{
    Call, Choice, End, Ends, NewLight, NewLine, NewLinks, Placement, Refusal, StopRule,
};

/// What 01 says of a call. A refusal alters nothing.
#[derive(Debug, Clone, PartialEq)]
pub enum Judged {
    Done {
        number: u64,
        set: FileSet,
        ends: Option<Named>,
        map: Box<FileMap>,
    },
    Refused(Refusal),
    /// Refused with 9, 10 or 11 by the checks that come last. The Rust has
    /// none of them and accepts.
    Last(Refusal),
    /// Refused with 2 because a rule names a stop line that is absent. The
    /// Rust panics there.
    AbsentLine(Refusal),
}

/// What is said of the ends of a drawn line.
#[derive(Debug, Clone, PartialEq)]
pub struct Named {
    pub ends: Ends,
    /// The other sides that lie as far out, at each end.
    pub rivals: [Vec<End>; 2],
}

/// Kinds of record in refusals and sets.
const LANE: u8 = 1;
const STOP_LINE: u8 = 5;
const SIGNAL: u8 = 6;
const CROSSWALK: u8 = 7;
const RULE: u8 = 8;

enum Stop {
    Refuse(Refusal),
    Last(Refusal),
    Absent(Refusal),
}

type Step<T> = Result<T, Stop>;

fn refuse<T>(number: u8, details: &[u64]) -> Step<T> {
    Err(Stop::Refuse(Refusal::new(number, details)))
}

fn need(good: bool, number: u8, details: &[u64]) -> Step<()> {
    if good {
        Ok(())
    } else {
        refuse(number, details)
    }
}

pub fn judge(map: &FileMap, call: &Call) -> Judged {
    let draft = match call {
        Call::Line(line) => stop_line(map, line),
        Call::Light(light) => traffic_light(map, light),
        Call::Links(links) => set_links(map, links),
    };
    match draft.and_then(|d| finish(map, d)) {
        Ok(done) => done,
        Err(Stop::Refuse(r)) => Judged::Refused(r),
        Err(Stop::Last(r)) => Judged::Last(r),
        Err(Stop::Absent(r)) => Judged::AbsentLine(r),
    }
}

/// What an edit that passed its own checks would leave.
struct Draft {
    number: u64,
    set: FileSet,
    ends: Option<Named>,
    map: FileMap,
    /// Points to be stored, bulbs among them.
    stored: Vec<Point>,
    /// How many numbers it hands out.
    handed: u64,
}

/// The checks that come last: 9, 10, 11.
fn finish(before: &FileMap, mut d: Draft) -> Step<Judged> {
    // The last number handed out stays below 2^64-1.
    let last = d
        .handed
        .checked_sub(1)
        .map(|n| before.next.max(1).checked_add(n));
    let spent = last.is_some_and(|n| n.is_none_or(|n| n == u64::MAX));
    for (good, number) in [
        (d.stored.iter().all(on_map), 9),
        (within(&d.map), 10),
        (!spent, 11),
    ] {
        if !good {
            return Err(Stop::Last(Refusal::new(number, &[])));
        }
    }
    d.set.created.sort();
    d.set.modified.sort();
    d.set.deleted.sort();
    Ok(Judged::Done {
        number: d.number,
        set: d.set,
        ends: d.ends,
        map: Box::new(d.map),
    })
}

fn on_map(p: &Point) -> bool {
    p.iter().all(|c| c.is_finite() && c.abs() <= MAX_COORDINATE)
}

/// The ceilings of 01.
fn within(m: &FileMap) -> bool {
    let lists = |r: &Rule| {
        let inner: Vec<&Vec<u64>> = match &r.what {
            What::Light { signals, .. } => vec![signals],
            What::RightOfWay {
                priority,
                yielding,
                lines,
            } => vec![priority, yielding, lines],
            What::Crosswalk { lines, .. } => vec![lines],
            _ => vec![],
        };
        inner.iter().all(|l| l.len() <= MAX_RULE_LIST)
            && r.lanes.len() <= MAX_RULE_LIST
            && r.crosswalks.len() <= MAX_RULE_LIST
    };
    m.lanes.len() <= MAX_LANES
        && m.boundaries.len() <= MAX_BOUNDARIES
        && m.stop_lines.len() <= MAX_STOP_LINES
        && m.signals.len() <= MAX_SIGNALS
        && m.crosswalks.len() <= MAX_CROSSWALKS
        && m.rules.len() <= MAX_RULES
        && m.stop_lines.iter().all(|s| s.points.len() <= MAX_POINTS)
        && m.signals
            .iter()
            .all(|s| s.housing.len() <= MAX_POINTS && s.bulbs.len() <= MAX_BULBS)
        && m.rules.iter().all(lists)
        && m.point_count() <= MAX_ALL_POINTS
}

// ------------------------------------------------------------------ checks

fn check_lanes(map: &FileMap, lanes: &[u64]) -> Step<()> {
    need(!lanes.is_empty(), 1, &[])?;
    for l in lanes {
        need(map.lane(*l).is_some(), 2, &[LANE.into(), *l])?;
    }
    need(!twice(lanes), 3, &[1])
}

fn twice(ns: &[u64]) -> bool {
    (0..ns.len()).any(|i| ns[..i].contains(&ns[i]))
}

fn check_given(points: &[Point]) -> Step<()> {
    let all = |f: fn(f64) -> bool| points.iter().flatten().all(|c| f(*c));
    need(all(f64::is_finite), 5, &[1])?;
    need(all(|c| c.abs() <= MAX_COORDINATE), 9, &[])?;
    need(points.len() <= MAX_POINTS, 10, &[])?;
    need(points.len() >= 2 && length(points) > 1e-9, 5, &[2])
}

// ---------------------------------------------------------------- geometry

fn hypot(x: f64, y: f64) -> f64 {
    (x * x + y * y).sqrt()
}

fn distance(a: Point, b: Point) -> f64 {
    let (x, y, z) = (a[0] - b[0], a[1] - b[1], a[2] - b[2]);
    (x * x + y * y + z * z).sqrt()
}

fn lerp(a: Point, b: Point, t: f64) -> Point {
    let on = |i: usize| a[i] + (b[i] - a[i]) * t;
    [on(0), on(1), on(2)]
}

fn length(p: &[Point]) -> f64 {
    let mut sum = 0.0;
    for i in 1..p.len() {
        sum += distance(p[i - 1], p[i]);
    }
    sum
}

fn hold(v: f64, low: f64, high: f64) -> f64 {
    if v < low {
        low
    } else if v > high {
        high
    } else {
        v
    }
}

fn locate(p: &[Point], station: f64) -> Option<(usize, f64)> {
    if p.is_empty() {
        return None;
    }
    if p.len() == 1 || station <= 0.0 {
        return Some((0, 0.0));
    }
    let mut reached = 0.0;
    for i in 0..p.len() - 1 {
        let segment = distance(p[i], p[i + 1]);
        if segment > 0.0 && reached + segment >= station {
            return Some((i, hold((station - reached) / segment, 0.0, 1.0)));
        }
        reached += segment;
    }
    Some((p.len() - 2, 1.0))
}

fn point_at(p: &[Point], station: f64) -> Option<Point> {
    let (i, t) = locate(p, station)?;
    match p.get(i + 1) {
        Some(end) => Some(lerp(p[i], *end, t)),
        None => Some(p[i]),
    }
}

fn direction_at(p: &[Point], station: f64) -> Option<[f64; 2]> {
    let (start, _) = locate(p, station)?;
    let unit = |i: usize| {
        let (x, y) = (p[i + 1][0] - p[i][0], p[i + 1][1] - p[i][1]);
        let n = hypot(x, y);
        (n > 1e-9).then(|| [x / n, y / n])
    };
    let mut i = start;
    while i + 1 < p.len() {
        if let Some(u) = unit(i) {
            return Some(u);
        }
        i += 1;
    }
    let mut i = start.min(p.len() - 1);
    while i > 0 {
        i -= 1;
        if let Some(u) = unit(i) {
            return Some(u);
        }
    }
    None
}

/// The nearest point and its station.
fn nearest(p: &[Point], q: [f64; 2]) -> Option<(Point, f64)> {
    if p.len() < 2 {
        return p.first().map(|a| (*a, 0.0));
    }
    let mut best: Option<(f64, Point, f64)> = None;
    let mut reached = 0.0;
    for i in 0..p.len() - 1 {
        let (a, b) = (p[i], p[i + 1]);
        let (x, y) = (b[0] - a[0], b[1] - a[1]);
        let square = x * x + y * y;
        let t = if square < 1e-18 {
            0.0
        } else {
            hold(((q[0] - a[0]) * x + (q[1] - a[1]) * y) / square, 0.0, 1.0)
        };
        let at = lerp(a, b, t);
        let d = hypot(at[0] - q[0], at[1] - q[1]);
        let segment = distance(a, b);
        if best.is_none_or(|(least, _, _)| d < least - 1e-9) {
            best = Some((d, at, reached + t * segment));
        }
        reached += segment;
    }
    best.map(|(_, at, station)| (at, station))
}

fn resample(p: &[Point], count: usize) -> Vec<Point> {
    let whole = length(p);
    let last = (count - 1) as f64;
    (0..count)
        .filter_map(|i| point_at(p, whole * i as f64 / last))
        .collect()
}

fn side(map: &FileMap, boundary: u64, reversed: bool) -> Option<Vec<Point>> {
    let mut points = map.boundary(boundary)?.points.clone();
    if reversed {
        points.reverse();
    }
    Some(points)
}

fn sides(map: &FileMap, lane: &Lane) -> [Option<Vec<Point>>; 2] {
    [
        side(map, lane.left, lane.left_reversed),
        side(map, lane.right, lane.right_reversed),
    ]
}

/// The stored centreline, even an empty one; else from the two sides.
fn centerline(map: &FileMap, lane: u64) -> Option<Vec<Point>> {
    let lane = map.lane(lane)?;
    if let Some(stored) = &lane.centerline {
        return Some(stored.clone());
    }
    let [Some(left), Some(right)] = sides(map, lane) else {
        return None;
    };
    if left.is_empty() || right.is_empty() {
        return None;
    }
    let count = left.len().max(right.len()).max(2);
    let (left, right) = (resample(&left, count), resample(&right, count));
    Some((0..count).map(|i| lerp(left[i], right[i], 0.5)).collect())
}

/// A side of a lane as a section meets it: how far to the left of the centre
/// its nearest point lies.
struct Candidate {
    lateral: f64,
    at: Point,
    name: End,
}

/// The first candidate that none lies beyond, and those that lie as far.
fn outermost(all: &[Candidate], beyond: fn(f64, f64) -> bool) -> Option<(&Candidate, Vec<End>)> {
    let kept = |c: &&Candidate| !all.iter().any(|o| beyond(o.lateral, c.lateral));
    let end = all.iter().find(kept)?;
    let rivals = all
        .iter()
        .filter(|c| c.lateral == end.lateral && c.name != end.name);
    Some((end, rivals.map(|c| c.name).collect()))
}

/// Points of a line, and the names of its ends where a section made it.
struct Drawn {
    points: Vec<Point>,
    ends: Option<Named>,
}

fn cross_section(map: &FileMap, station: f64, lanes: &[u64]) -> Step<Drawn> {
    let Some(center) = centerline(map, lanes[0]) else {
        return refuse(6, &[1]);
    };
    let Some(p) = point_at(&center, station) else {
        return refuse(6, &[2]);
    };
    let Some(u) = direction_at(&center, station) else {
        return refuse(6, &[3]);
    };
    let normal = [-u[1], u[0]];
    let mut all = vec![];
    for l in lanes {
        let lane = map.lane(*l).expect("a checked lane");
        for (side, points) in (0..).zip(sides(map, lane)) {
            let Some(points) = points else {
                return refuse(6, &[4]);
            };
            let Some((at, _)) = nearest(&points, [p[0], p[1]]) else {
                continue;
            };
            let lateral = normal[0] * (at[0] - p[0]) + normal[1] * (at[1] - p[1]);
            let name = End { lane: *l, side };
            all.push(Candidate { lateral, at, name });
        }
    }
    let left = outermost(&all, |a, b| a > b);
    let right = outermost(&all, |a, b| a < b);
    match (left, right) {
        (Some((a, others)), Some((b, more))) if a.lateral - b.lateral > 1e-3 => Ok(Drawn {
            points: vec![a.at, b.at],
            ends: Some(Named {
                ends: [a.name, b.name],
                rivals: [others, more],
            }),
        }),
        _ => refuse(6, &[5]),
    }
}

// --------------------------------------------------------------- stop line

fn place(
    map: &FileMap,
    lanes: &[u64],
    placement: &Placement,
    warnings: &mut Vec<Warning>,
) -> Step<Drawn> {
    let Some(center) = centerline(map, lanes[0]) else {
        return refuse(6, &[1]);
    };
    let whole = length(&center);
    let station = match placement {
        Placement::Given(points) => {
            check_given(points)?;
            return Ok(Drawn {
                points: points.clone(),
                ends: None,
            });
        }
        Placement::LaneEnd(offset) => {
            need(offset.is_finite() && *offset >= 0.0, 4, &[2])?;
            whole - offset
        }
        Placement::Station(station) => *station,
    };
    need(station.is_finite(), 4, &[3])?;
    let clamped = hold(station, 0.0, whole);
    if (clamped - station).abs() > 1e-9 {
        warnings.push(warning(1, Some((LANE, lanes[0]))));
    }
    cross_section(map, clamped, lanes)
}

fn warning(code: u8, entity: Option<(u8, u64)>) -> Warning {
    let entity = entity.map(|(kind, number)| Ref { kind, number });
    Warning { code, entity }
}

fn reference(kind: u8, number: u64) -> Ref {
    Ref { kind, number }
}

/// Hands out numbers: the larger of next and 1. It goes round at the end of
/// the series; such an edit is refused with 11.
fn hand_out(map: &mut FileMap, handed: &mut u64) -> u64 {
    let number = map.next.max(1);
    map.next = number.wrapping_add(1);
    *handed += 1;
    number
}

fn stop_line(map: &FileMap, line: &NewLine) -> Step<Draft> {
    check_lanes(map, &line.lanes)?;
    let mut set = FileSet::default();
    let Drawn { points, ends } = place(map, &line.lanes, &line.placement, &mut set.warnings)?;
    let mut after = map.clone();
    let mut handed = 0;
    let number = hand_out(&mut after, &mut handed);
    after.stop_lines.push(Line {
        number,
        points: points.clone(),
    });
    set.created.push(reference(STOP_LINE, number));
    let what = match line.rule {
        StopRule::Sign => Some(What::Sign {
            sign_type: 1,
            sign: None,
            line: Some(number),
        }),
        StopRule::Marking => Some(What::Marking { line: number }),
        StopRule::None => None,
    };
    match what {
        Some(what) => {
            let rule = hand_out(&mut after, &mut handed);
            after.rules.push(Rule {
                number: rule,
                what,
                lanes: line.lanes.clone(),
                crosswalks: vec![],
            });
            set.created.push(reference(RULE, rule));
        }
        None => set.warnings.push(warning(2, Some((STOP_LINE, number)))),
    }
    Ok(Draft {
        number,
        set,
        ends,
        map: after,
        stored: points,
        handed,
    })
}

// ------------------------------------------------------------------- light

enum Plan {
    Use(u64),
    NoLine,
    Draw(Drawn),
}

/// The line of the lowest rule that lists the lane and is a light, a sign or
/// a marking with a line.
pub fn line_of_lane(map: &FileMap, lane: u64) -> Option<u64> {
    map.rules
        .iter()
        .filter(|r| r.lanes.contains(&lane))
        .find_map(|r| match &r.what {
            What::Light { line, .. } | What::Sign { line, .. } => *line,
            What::Marking { line } => Some(*line),
            _ => None,
        })
}

pub fn is_stop_rule_on(rule: &Rule, line: u64) -> bool {
    match &rule.what {
        What::Marking { line: own } => *own == line,
        What::Sign {
            sign_type: 1,
            line: own,
            ..
        } => *own == Some(line),
        _ => false,
    }
}

fn group_line(map: &FileMap, group: u64) -> Step<Option<u64>> {
    let Some(rule) = map.rule(group) else {
        return refuse(2, &[RULE.into(), group]);
    };
    need(rule.crosswalks.is_empty(), 7, &[1])?;
    match &rule.what {
        What::Light { line, .. } => Ok(*line),
        _ => refuse(7, &[2]),
    }
}

/// The checks that come before the choice of a line is looked at, and the
/// group's line.
fn before_choice(map: &FileMap, light: &NewLight) -> Step<Option<u64>> {
    check_lanes(map, &light.lanes)?;
    if let Some(h) = light.height {
        need(h.is_finite() && h > 0.0, 4, &[1])?;
    }
    if let Some(housing) = &light.housing {
        check_given(housing)?;
    }
    match light.group {
        Some(group) => group_line(map, group),
        None => Ok(None),
    }
}

/// The group's line, where a light asks for a new one or for none. The Rust
/// draws a second line then, or lifts nothing; request 4 changed that.
pub fn joined_line(map: &FileMap, light: &NewLight) -> Option<u64> {
    let (Choice::New(_) | Choice::None) = light.choice else {
        return None;
    };
    before_choice(map, light).ok().flatten()
}

fn traffic_light(map: &FileMap, light: &NewLight) -> Step<Draft> {
    let lanes = &light.lanes;
    let kept = before_choice(map, light)?;
    let choice = match (&light.choice, kept) {
        (Choice::New(_), Some(_)) => return refuse(7, &[4]),
        (Choice::None, Some(own)) => &Choice::Existing(own),
        (choice, _) => choice,
    };
    if let Choice::Existing(s) = *choice {
        need(map.stop_line(s).is_some(), 2, &[STOP_LINE.into(), s])?;
        need(kept.is_none_or(|own| own == s), 7, &[3])?;
    }
    let mut set = FileSet::default();
    let plan = match choice {
        Choice::Existing(s) => Plan::Use(*s),
        Choice::None => Plan::NoLine,
        Choice::New(p) => Plan::Draw(place(map, lanes, p, &mut set.warnings)?),
        Choice::Auto => match kept.or_else(|| line_of_lane(map, lanes[0])) {
            Some(s) => Plan::Use(s),
            None => {
                let end = Placement::LaneEnd(0.0);
                Plan::Draw(place(map, lanes, &end, &mut set.warnings)?)
            }
        },
    };
    let anchor = match &plan {
        Plan::Use(s) => match map.stop_line(*s) {
            Some(line) => line.points.clone(),
            None => {
                let details = [STOP_LINE.into(), *s];
                return Err(Stop::Absent(Refusal::new(2, &details)));
            }
        },
        Plan::Draw(line) => line.points.clone(),
        Plan::NoLine => {
            let end = centerline(map, lanes[0]).map_or(0.0, |c| length(&c));
            cross_section(map, end, lanes)?.points
        }
    };
    let housing = match &light.housing {
        Some(points) => points.clone(),
        None => {
            let points = synthesize(map, lanes[0], &anchor)?;
            set.warnings.push(warning(3, None));
            points
        }
    };

    let height = light.height.unwrap_or(0.5);
    let bulbs = match &light.bulbs {
        Some(bulbs) => bulbs.clone(),
        None => standard_bulbs(light.pedestrian, &housing, height),
    };
    let mut stored: Vec<Point> = bulbs.iter().map(|b| b.at).collect();
    stored.extend(&housing);
    let mut after = map.clone();
    let mut handed = 0;
    let mut ends = None;
    let line = match plan {
        Plan::Use(s) => Some(s),
        Plan::NoLine => None,
        Plan::Draw(line) => {
            let points = line.points;
            ends = line.ends;
            stored.extend(&points);
            let number = hand_out(&mut after, &mut handed);
            after.stop_lines.push(Line { number, points });
            set.created.push(reference(STOP_LINE, number));
            Some(number)
        }
    };
    let number = hand_out(&mut after, &mut handed);
    after.signals.push(Signal {
        number,
        pedestrian: light.pedestrian,
        housing,
        height: Some(height),
        bulbs,
    });
    set.created.push(reference(SIGNAL, number));
    match light.group {
        None => {
            let rule = hand_out(&mut after, &mut handed);
            after.rules.push(Rule {
                number: rule,
                what: What::Light {
                    signals: vec![number],
                    line,
                },
                lanes: lanes.clone(),
                crosswalks: vec![],
            });
            set.created.push(reference(RULE, rule));
        }
        Some(group) => {
            let rule = after
                .rules
                .iter_mut()
                .find(|r| r.number == group)
                .expect("a checked group");
            if let What::Light { signals, line: own } = &mut rule.what {
                signals.push(number);
                *own = own.or(line);
            }
            for l in lanes {
                if !rule.lanes.contains(l) {
                    rule.lanes.push(*l);
                }
            }
            set.modified.push(reference(RULE, group));
        }
    }
    if let Some(s) = line {
        lift(&mut after, s, lanes, &mut set);
    }
    Ok(Draft {
        number,
        set,
        ends,
        map: after,
        stored,
        handed,
    })
}

/// Takes the lanes out of every marking and stop sign on the line.
fn lift(map: &mut FileMap, line: u64, lanes: &[u64], set: &mut FileSet) {
    let mut kept = vec![];
    for mut rule in std::mem::take(&mut map.rules) {
        let before = rule.lanes.len();
        if is_stop_rule_on(&rule, line) {
            rule.lanes.retain(|l| !lanes.contains(l));
        }
        if rule.lanes.len() < before {
            set.warnings.push(warning(4, Some((RULE, rule.number))));
            if rule.lanes.is_empty() {
                set.deleted.push(reference(RULE, rule.number));
                continue;
            }
            set.modified.push(reference(RULE, rule.number));
        }
        kept.push(rule);
    }
    map.rules = kept;
}

fn synthesize(map: &FileMap, lane: u64, anchor: &[Point]) -> Step<Vec<Point>> {
    let Some(mid) = point_at(anchor, 0.5 * length(anchor)) else {
        return refuse(6, &[6]);
    };
    let Some(center) = centerline(map, lane) else {
        return refuse(6, &[1]);
    };
    let station = nearest(&center, [mid[0], mid[1]]).map_or(0.0, |n| n.1);
    let Some(u) = direction_at(&center, station) else {
        return refuse(6, &[3]);
    };
    let (x, y) = (-u[1] * 0.6, u[0] * 0.6);
    let z = mid[2] + 5.0;
    Ok(vec![
        [mid[0] + x, mid[1] + y, z],
        [mid[0] - x, mid[1] - y, z],
    ])
}

fn standard_bulbs(pedestrian: bool, housing: &[Point], height: f64) -> Vec<Bulb> {
    const RED: u8 = 0;
    const YELLOW: u8 = 1;
    const GREEN: u8 = 2;
    let colors: &[u8] = if pedestrian {
        &[GREEN, RED]
    } else {
        &[GREEN, YELLOW, RED]
    };
    let whole = length(housing);
    let n = colors.len() as f64;
    let mut out = vec![];
    for (i, color) in colors.iter().enumerate() {
        let fraction = hold((i as f64 + 0.5) / n, 0.0, 1.0);
        if let Some(p) = point_at(housing, fraction * whole) {
            out.push(Bulb {
                at: [p[0], p[1], p[2] + height / 2.0],
                color: *color,
                arrow: 0,
            });
        }
    }
    out
}

// ------------------------------------------------------------------- links

fn set_links(map: &FileMap, links: &NewLinks) -> Step<Draft> {
    let Some(rule) = map.rule(links.rule) else {
        return refuse(2, &[RULE.into(), links.rule]);
    };
    for (i, list) in [&links.lanes, &links.crosswalks, &links.lines]
        .iter()
        .enumerate()
    {
        need(!twice(list), 3, &[i as u64 + 1])?;
    }
    let sorted = |ns: &[u64]| {
        let mut ns = ns.to_vec();
        ns.sort();
        ns
    };
    let lanes = sorted(&links.lanes);
    let crosswalks = sorted(&links.crosswalks);
    let lines = sorted(&links.lines);
    for l in &lanes {
        need(map.lane(*l).is_some(), 2, &[LANE.into(), *l])?;
    }
    for c in &crosswalks {
        need(map.crosswalk(*c).is_some(), 2, &[CROSSWALK.into(), *c])?;
    }
    for s in &lines {
        need(map.stop_line(*s).is_some(), 2, &[STOP_LINE.into(), *s])?;
    }
    let mut edited = rule.clone();
    match &mut edited.what {
        What::Light { signals, line } => {
            need(!signals.is_empty(), 8, &[1])?;
            let (mut vehicle, mut pedestrian) = (false, false);
            for n in signals {
                let Some(signal) = map.signal(*n) else {
                    return refuse(2, &[SIGNAL.into(), *n]);
                };
                vehicle |= !signal.pedestrian;
                pedestrian |= signal.pedestrian;
            }
            need(!(vehicle && pedestrian), 8, &[2])?;
            need(
                !pedestrian || (lanes.is_empty() && lines.is_empty()),
                8,
                &[3],
            )?;
            need(!vehicle || crosswalks.is_empty(), 8, &[4])?;
            need(lines.len() <= 1, 8, &[5])?;
            *line = lines.first().copied();
        }
        What::Crosswalk { lines: own, .. } => {
            need(crosswalks.is_empty(), 8, &[6])?;
            *own = lines;
        }
        What::Marking { line } => {
            need(crosswalks.is_empty() && lines == [*line], 8, &[7])?;
        }
        _ => return refuse(8, &[8]),
    }
    edited.lanes = lanes;
    edited.crosswalks = crosswalks;
    let mut after = map.clone();
    let mut set = FileSet::default();
    let slot = after
        .rules
        .iter_mut()
        .find(|r| r.number == links.rule)
        .expect("a checked rule");
    if *slot != edited {
        *slot = edited;
        set.modified.push(reference(RULE, links.rule));
    }
    Ok(Draft {
        number: 0,
        set,
        ends: None,
        map: after,
        stored: vec![],
        handed: 0,
    })
}
