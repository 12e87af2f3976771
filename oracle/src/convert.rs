//! Plain file records to the supplied `Map` and `ChangeSet`, and back. What
//! the files do not carry takes its default.

use vectormap_core as vm;

use crate::codec::*;

pub fn point(p: &Point) -> vm::Point3 {
    vm::Point3::new(p[0], p[1], p[2])
}

pub fn polyline(points: &[Point]) -> vm::Polyline3 {
    vm::Polyline3::new(points.iter().map(point).collect())
}

pub fn points(line: &[vm::Point3]) -> Vec<Point> {
    line.iter().map(|p| [p.x, p.y, p.z]).collect()
}

const LANE_KINDS: [vm::LaneKind; 8] = [
    vm::LaneKind::Driving,
    vm::LaneKind::Shoulder,
    vm::LaneKind::Bus,
    vm::LaneKind::Bicycle,
    vm::LaneKind::Walkway,
    vm::LaneKind::Parking,
    vm::LaneKind::Emergency,
    vm::LaneKind::Other,
];

const COLORS: [vm::BulbColor; 4] = [
    vm::BulbColor::Red,
    vm::BulbColor::Yellow,
    vm::BulbColor::Green,
    vm::BulbColor::White,
];

const ARROWS: [vm::BulbArrow; 8] = [
    vm::BulbArrow::Up,
    vm::BulbArrow::Down,
    vm::BulbArrow::Left,
    vm::BulbArrow::Right,
    vm::BulbArrow::UpLeft,
    vm::BulbArrow::UpRight,
    vm::BulbArrow::DownLeft,
    vm::BulbArrow::DownRight,
];

fn place<T: PartialEq>(all: &[T], x: T) -> u8 {
    all.iter().position(|y| *y == x).expect("a listed case") as u8
}

pub fn signal_kind(pedestrian: bool) -> vm::SignalKind {
    if pedestrian {
        vm::SignalKind::Pedestrian
    } else {
        vm::SignalKind::Vehicle
    }
}

pub fn bulb(b: &Bulb) -> vm::SignalBulb {
    vm::SignalBulb {
        position: point(&b.at),
        color: COLORS[usize::from(b.color)],
        arrow: b.arrow.checked_sub(1).map(|a| ARROWS[usize::from(a)]),
    }
}

fn sign_text(n: u64) -> String {
    if n == 1 {
        "stop_sign".into()
    } else {
        format!("t{n}")
    }
}

fn sign_number(text: &str) -> u64 {
    if text == "stop_sign" {
        return 1;
    }
    let n = text.strip_prefix('t').and_then(|t| t.parse().ok());
    n.expect("a sign type of ours")
}

fn raws<T>(ns: &[u64], make: fn(u64) -> T) -> Vec<T> {
    ns.iter().map(|n| make(*n)).collect()
}

pub fn to_map(file: &FileMap) -> vm::Map {
    let mut map = vm::Map::new();
    for l in &file.lanes {
        let side = |boundary, reversed| vm::BoundaryRef {
            boundary: vm::BoundaryId(boundary),
            reversed,
        };
        let mut lane = vm::Lane::new(
            vm::LaneId(l.number),
            side(l.left, l.left_reversed),
            side(l.right, l.right_reversed),
        );
        lane.kind = LANE_KINDS[usize::from(l.kind)];
        lane.centerline = l.centerline.as_deref().map(polyline);
        map.insert_lane(lane).expect("a new lane");
    }
    for b in &file.boundaries {
        map.insert_boundary(vm::Boundary::new(
            vm::BoundaryId(b.number),
            vm::BoundaryKind::default(),
            polyline(&b.points),
        ))
        .expect("a new boundary");
    }
    for s in &file.stop_lines {
        map.insert_stop_line(vm::StopLine {
            id: vm::StopLineId(s.number),
            geometry: polyline(&s.points),
            attributes: Default::default(),
        })
        .expect("a new stop line");
    }
    for s in &file.signals {
        map.insert_traffic_signal(vm::TrafficSignal {
            id: vm::SignalId(s.number),
            kind: signal_kind(s.pedestrian),
            geometry: polyline(&s.housing),
            height: s.height,
            bulbs: s.bulbs.iter().map(bulb).collect(),
            attributes: Default::default(),
        })
        .expect("a new signal");
    }
    for c in &file.crosswalks {
        map.insert_crosswalk(vm::Crosswalk {
            id: vm::CrosswalkId(c.number),
            left_edge: polyline(&c.left),
            right_edge: polyline(&c.right),
            // Not `Polygon3::new`: it would drop a repeated closing point.
            polygon: c.outline.as_ref().map(|o| vm::Polygon3 {
                points: o.iter().map(point).collect(),
            }),
            attributes: Default::default(),
        })
        .expect("a new crosswalk");
    }
    for r in &file.rules {
        map.insert_regulatory_element(vm::RegulatoryElement {
            id: vm::RegulatoryElementId(r.number),
            rule: to_rule(&r.what),
            lanes: raws(&r.lanes, vm::LaneId),
            controlled_crosswalks: raws(&r.crosswalks, vm::CrosswalkId),
            attributes: Default::default(),
        })
        .expect("a new rule");
    }
    map.oracle_set_next_id(file.next);
    map
}

fn to_rule(what: &What) -> vm::Rule {
    match what {
        What::Light { signals, line } => vm::Rule::TrafficLight {
            signals: raws(signals, vm::SignalId),
            stop_line: line.map(vm::StopLineId),
        },
        What::Sign {
            sign_type,
            sign,
            line,
        } => vm::Rule::TrafficSign {
            sign_type: sign_text(*sign_type),
            sign: sign.as_deref().map(polyline),
            stop_line: line.map(vm::StopLineId),
        },
        What::Marking { line } => vm::Rule::StopLine {
            stop_line: vm::StopLineId(*line),
        },
        What::RightOfWay {
            priority,
            yielding,
            lines,
        } => vm::Rule::RightOfWay {
            priority: raws(priority, vm::LaneId),
            yielding: raws(yielding, vm::LaneId),
            stop_lines: raws(lines, vm::StopLineId),
        },
        What::Crosswalk { crosswalk, lines } => vm::Rule::Crosswalk {
            crosswalk: vm::CrosswalkId(*crosswalk),
            stop_lines: raws(lines, vm::StopLineId),
        },
        What::Other { kind } => vm::Rule::Other {
            kind: format!("k{kind}"),
        },
    }
}

fn from_rule(rule: &vm::Rule) -> What {
    match rule {
        vm::Rule::TrafficLight { signals, stop_line } => What::Light {
            signals: signals.iter().map(|s| s.0).collect(),
            line: stop_line.map(|s| s.0),
        },
        vm::Rule::TrafficSign {
            sign_type,
            sign,
            stop_line,
        } => What::Sign {
            sign_type: sign_number(sign_type),
            sign: sign.as_ref().map(|s| points(&s.points)),
            line: stop_line.map(|s| s.0),
        },
        vm::Rule::StopLine { stop_line } => What::Marking { line: stop_line.0 },
        vm::Rule::RightOfWay {
            priority,
            yielding,
            stop_lines,
        } => What::RightOfWay {
            priority: priority.iter().map(|l| l.0).collect(),
            yielding: yielding.iter().map(|l| l.0).collect(),
            lines: stop_lines.iter().map(|s| s.0).collect(),
        },
        vm::Rule::Crosswalk {
            crosswalk,
            stop_lines,
        } => What::Crosswalk {
            crosswalk: crosswalk.0,
            lines: stop_lines.iter().map(|s| s.0).collect(),
        },
        vm::Rule::Other { kind } => What::Other {
            kind: kind
                .strip_prefix('k')
                .and_then(|k| k.parse().ok())
                .expect("a rule kind of ours"),
        },
    }
}

pub fn from_map(map: &vm::Map) -> FileMap {
    FileMap {
        next: map.oracle_next_id(),
        lanes: map
            .lanes()
            .map(|l| Lane {
                number: l.id.0,
                kind: place(&LANE_KINDS, l.kind),
                left: l.left.boundary.0,
                left_reversed: l.left.reversed,
                right: l.right.boundary.0,
                right_reversed: l.right.reversed,
                centerline: l.centerline.as_ref().map(|c| points(&c.points)),
            })
            .collect(),
        boundaries: map
            .boundaries()
            .map(|b| Line {
                number: b.id.0,
                points: points(&b.geometry.points),
            })
            .collect(),
        stop_lines: map
            .stop_lines()
            .map(|s| Line {
                number: s.id.0,
                points: points(&s.geometry.points),
            })
            .collect(),
        signals: map
            .traffic_signals()
            .map(|s| Signal {
                number: s.id.0,
                pedestrian: s.kind == vm::SignalKind::Pedestrian,
                housing: points(&s.geometry.points),
                height: s.height,
                bulbs: s
                    .bulbs
                    .iter()
                    .map(|b| Bulb {
                        at: [b.position.x, b.position.y, b.position.z],
                        color: place(&COLORS, b.color),
                        arrow: b.arrow.map_or(0, |a| place(&ARROWS, a) + 1),
                    })
                    .collect(),
            })
            .collect(),
        crosswalks: map
            .crosswalks()
            .map(|c| Crosswalk {
                number: c.id.0,
                left: points(&c.left_edge.points),
                right: points(&c.right_edge.points),
                outline: c.polygon.as_ref().map(|o| points(&o.points)),
            })
            .collect(),
        rules: map
            .regulatory_elements()
            .map(|r| Rule {
                number: r.id.0,
                what: from_rule(&r.rule),
                lanes: r.lanes.iter().map(|l| l.0).collect(),
                crosswalks: r.controlled_crosswalks.iter().map(|c| c.0).collect(),
            })
            .collect(),
    }
}

pub fn to_entity(r: &Ref) -> vm::EntityRef {
    match r.kind {
        1 => vm::LaneId(r.number).into(),
        2 => vm::BoundaryId(r.number).into(),
        3 => vm::RoadId(r.number).into(),
        4 => vm::JunctionId(r.number).into(),
        5 => vm::StopLineId(r.number).into(),
        6 => vm::SignalId(r.number).into(),
        7 => vm::CrosswalkId(r.number).into(),
        8 => vm::RegulatoryElementId(r.number).into(),
        k => panic!("no kind {k}"),
    }
}

pub fn from_entity(e: vm::EntityRef) -> Ref {
    let kind = match e {
        vm::EntityRef::Lane(_) => 1,
        vm::EntityRef::Boundary(_) => 2,
        vm::EntityRef::Road(_) => 3,
        vm::EntityRef::Junction(_) => 4,
        vm::EntityRef::StopLine(_) => 5,
        vm::EntityRef::TrafficSignal(_) => 6,
        vm::EntityRef::Crosswalk(_) => 7,
        vm::EntityRef::RegulatoryElement(_) => 8,
    };
    Ref {
        kind,
        number: e.raw(),
    }
}

const CODES: [vm::IssueCode; 4] = [
    vm::codes::PLACEMENT_CLAMPED,
    vm::codes::ORPHAN_RULE,
    vm::codes::GEOMETRY_SYNTHESIZED,
    vm::codes::RULE_REPLACED,
];

pub fn to_set(file: &FileSet) -> vm::ChangeSet {
    let refs = |l: &[Ref]| l.iter().map(to_entity).collect();
    let mut set = vm::ChangeSet::new();
    set.created = refs(&file.created);
    set.modified = refs(&file.modified);
    set.deleted = refs(&file.deleted);
    for w in &file.warnings {
        let mut issue = vm::Issue::warning(CODES[usize::from(w.code) - 1].clone(), "");
        issue.entity = w.entity.as_ref().map(to_entity);
        set.warnings.push(issue);
    }
    set
}

pub fn from_set(set: &vm::ChangeSet) -> FileSet {
    let refs = |l: &[vm::EntityRef]| l.iter().map(|e| from_entity(*e)).collect();
    FileSet {
        created: refs(&set.created),
        modified: refs(&set.modified),
        deleted: refs(&set.deleted),
        warnings: set
            .warnings
            .iter()
            .map(|w| Warning {
                code: place(&CODES, w.code.clone()) + 1,
                entity: w.entity.map(from_entity),
            })
            .collect(),
    }
}
