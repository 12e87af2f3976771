//! The three edits, run by the supplied Rust, with its errors as 01's numbers.

use vectormap_core as vm;

use crate::codec::{Bulb, FileSet, Point};
use crate::{convert, quiet};

#[derive(Debug, Clone, PartialEq)]
pub enum Placement {
    LaneEnd(f64),
    Station(f64),
    Given(Vec<Point>),
}

#[derive(Debug, Clone, Copy, PartialEq, Eq)]
pub enum StopRule {
    Sign,
    Marking,
    None,
}

#[derive(Debug, Clone, PartialEq)]
pub enum Choice {
    Auto,
    Existing(u64),
    New(Placement),
    None,
}

#[derive(Debug, Clone, PartialEq)]
pub struct NewLine {
    pub lanes: Vec<u64>,
    pub placement: Placement,
    pub rule: StopRule,
}

#[derive(Debug, Clone, PartialEq)]
pub struct NewLight {
    pub lanes: Vec<u64>,
    pub choice: Choice,
    pub housing: Option<Vec<Point>>,
    pub height: Option<f64>,
    pub pedestrian: bool,
    pub bulbs: Option<Vec<Bulb>>,
    pub group: Option<u64>,
}

#[derive(Debug, Clone, PartialEq)]
pub struct NewLinks {
    pub rule: u64,
    pub lanes: Vec<u64>,
    pub crosswalks: Vec<u64>,
    pub lines: Vec<u64>,
}

#[derive(Debug, Clone, PartialEq)]
pub enum Call {
    Line(NewLine),
    Light(NewLight),
    Links(NewLinks),
}

/// 01's number and the details it names.
#[derive(Debug, Clone, PartialEq, Eq, PartialOrd, Ord)]
pub struct Refusal {
    pub number: u8,
    pub details: Vec<u64>,
}

impl Refusal {
    pub fn new(number: u8, details: &[u64]) -> Self {
        let details = details.to_vec();
        Refusal { number, details }
    }
}

/// The side of a lane that an end of a drawn line lies on: 0 left, 1 right.
#[derive(Debug, Clone, Copy, PartialEq, Eq)]
pub struct End {
    pub lane: u64,
    pub side: u8,
}

/// The left end and the right end.
pub type Ends = [End; 2];

#[derive(Debug, Clone, PartialEq)]
pub enum Outcome {
    /// The new line's or signal's number (0 for links), the change set, and
    /// the ends of a line that was drawn across lanes.
    Done {
        number: u64,
        set: FileSet,
        ends: Option<Ends>,
    },
    Refused(Refusal),
    Panic,
}

/// The Rust's messages by argument name (empty for geometry) and a part of
/// the reason that no other message has, and what 01 calls them.
const REASONS: [(&str, &str, u8, &[u64]); 26] = [
    ("lanes", "at least one", 1, &[]),
    ("lanes", "duplicates", 3, &[1]),
    ("controlled_crosswalks", "duplicates", 3, &[2]),
    ("stop_lines", "duplicates", 3, &[3]),
    ("height", "positive", 4, &[1]),
    ("offset", "non-negative", 4, &[2]),
    ("station", "finite", 4, &[3]),
    ("", "non-finite", 5, &[1]),
    ("", "at least two", 5, &[2]),
    ("", "no usable", 6, &[1]),
    ("", "empty centerline", 6, &[2]),
    ("", "degenerate", 6, &[3]),
    ("", "missing boundary", 6, &[4]),
    ("", "cannot build", 6, &[5]),
    ("", "empty stop line", 6, &[6]),
    ("group", "crosswalk-controlled", 7, &[1]),
    ("group", "is not a traffic light", 7, &[2]),
    ("stop_line", "already uses", 7, &[3]),
    ("signals", "no signals", 8, &[1]),
    ("signals", "mixed", 8, &[2]),
    ("targets", "pedestrian", 8, &[3]),
    ("controlled_crosswalks", "vehicle lights", 8, &[4]),
    ("stop_lines", "at most one", 8, &[5]),
    ("controlled_crosswalks", "only pedestrian", 8, &[6]),
    ("targets", "stop marking", 8, &[7]),
    ("rule", "associations", 8, &[8]),
];

/// 01's number and details for an error of the Rust.
pub fn refusal(error: &vm::EditError) -> Refusal {
    let (name, reason) = match error {
        vm::EditError::NotFound { entity } => {
            let r = convert::from_entity(*entity);
            return Refusal::new(2, &[r.kind.into(), r.number]);
        }
        vm::EditError::InvalidArgument { name, reason } => (name.as_str(), reason),
        vm::EditError::InvalidGeometry { reason } => ("", reason),
        other => panic!("an error that the three edits do not have: {other:?}"),
    };
    let fits: Vec<_> = REASONS
        .iter()
        .filter(|r| r.0 == name && reason.contains(r.1))
        .collect();
    match fits[..] {
        [(_, _, number, details)] => Refusal::new(*number, details),
        _ => panic!("a message not known one way: {error:?}"),
    }
}

fn lane_ids(ns: &[u64]) -> Vec<vm::LaneId> {
    ns.iter().map(|n| vm::LaneId(*n)).collect()
}

fn placement(p: &Placement) -> vm::StopLinePlacement {
    match p {
        Placement::LaneEnd(offset) => vm::StopLinePlacement::AtLaneEnd { offset: *offset },
        Placement::Station(station) => vm::StopLinePlacement::AtStation { station: *station },
        Placement::Given(points) => vm::StopLinePlacement::Geometry {
            geometry: convert::polyline(points),
        },
    }
}

pub fn line_spec(line: &NewLine) -> vm::NewStopLine {
    vm::NewStopLine {
        lanes: lane_ids(&line.lanes),
        placement: placement(&line.placement),
        rule: match line.rule {
            StopRule::Sign => vm::StopRule::StopSign,
            StopRule::Marking => vm::StopRule::Marking,
            StopRule::None => vm::StopRule::None,
        },
    }
}

pub fn light_spec(light: &NewLight) -> vm::NewTrafficSignal {
    vm::NewTrafficSignal {
        lanes: lane_ids(&light.lanes),
        stop_line: match &light.choice {
            Choice::Auto => vm::StopLineChoice::Auto,
            Choice::Existing(s) => vm::StopLineChoice::Existing(vm::StopLineId(*s)),
            Choice::New(p) => vm::StopLineChoice::New(placement(p)),
            Choice::None => vm::StopLineChoice::None,
        },
        geometry: light.housing.as_deref().map(convert::polyline),
        height: light.height,
        kind: convert::signal_kind(light.pedestrian),
        bulbs: light
            .bulbs
            .as_ref()
            .map(|b| b.iter().map(convert::bulb).collect()),
        group: light.group.map(vm::RegulatoryElementId),
    }
}

/// Runs one edit on the supplied `Map`, its answer as the Rust gives it.
pub fn run(map: &mut vm::Map, call: &Call) -> Result<(u64, vm::ChangeSet), vm::EditError> {
    match call {
        Call::Line(line) => map.add_stop_line(line_spec(line)).map(|(n, s)| (n.0, s)),
        Call::Light(light) => map
            .add_traffic_signal(light_spec(light))
            .map(|(n, s)| (n.0, s)),
        Call::Links(links) => {
            let crosswalks: Vec<_> = links
                .crosswalks
                .iter()
                .map(|n| vm::CrosswalkId(*n))
                .collect();
            let lines: Vec<_> = links.lines.iter().map(|n| vm::StopLineId(*n)).collect();
            map.set_regulatory_links(
                vm::RegulatoryElementId(links.rule),
                &lane_ids(&links.lanes),
                &crosswalks,
                &lines,
            )
            .map(|s| (0, s))
        }
    }
}

/// The ends of the stop line that the Rust has placed by a cross-section.
fn placed_ends() -> Option<Ends> {
    let end = |(lane, side): (vm::LaneId, vm::Side)| End {
        lane: lane.0,
        side: match side {
            vm::Side::Left => 0,
            vm::Side::Right => 1,
        },
    };
    vm::ends::take().map(|ends| ends.map(end))
}

/// Runs one edit and gives its answer in 01's numbers. A panic of the Rust is
/// an answer too; the map is then as it was.
pub fn answer(map: &mut vm::Map, call: &Call) -> Outcome {
    let mut edited = map.clone();
    // An edit that is refused or panics may have placed a line before.
    vm::ends::take();
    match quiet::caught(|| run(&mut edited, call)) {
        None => Outcome::Panic,
        Some(Err(error)) => {
            assert!(edited == *map, "a refused edit has altered the map");
            Outcome::Refused(refusal(&error))
        }
        Some(Ok((number, set))) => {
            *map = edited;
            let set = convert::from_set(&set);
            let ends = placed_ends();
            Outcome::Done { number, set, ends }
        }
    }
}
