//! The worked crossings of 01, as far as the Rust answers them.

use oracle::codec::*;
use oracle::edits::{
    self, Call, Choice, End, NewLight, NewLine, Outcome, Placement, Refusal, StopRule,
};
use oracle::run::{Reason, Run, Verdict};
use oracle::sample::{crossing, plain_light, stop_sign, zeros};
use oracle::vectormap::Point2;
use oracle::{convert, fold};

fn done(run: &mut Run, call: &Call) -> (u64, FileSet) {
    match run.call(call) {
        Verdict::Answer(Outcome::Done { number, set, .. }) => (number, set),
        other => panic!("{other:?}"),
    }
}

fn refused(run: &mut Run, call: &Call) -> Refusal {
    match run.call(call) {
        Verdict::Answer(Outcome::Refused(r)) => r,
        other => panic!("{other:?}"),
    }
}

fn bytes(text: &str) -> Vec<u8> {
    from_hex(text).unwrap()
}

fn at_end(offset: f64) -> Call {
    stop_sign(&[3], Placement::LaneEnd(offset))
}

fn line_points(run: &Run, number: u64) -> Vec<Point> {
    run.file.stop_line(number).unwrap().points.clone()
}

#[test]
fn p1_p2_p3() {
    let mut s = Run::open(crossing(2.0));
    let (number, first) = done(&mut s, &at_end(0.0));
    assert_eq!(number, 4);
    assert_eq!(write_set(&first), bytes("02 05 04 08 05 00 00 00"));
    assert_eq!(line_points(&s, 4), [[10.0, 2.0, 0.0], [10.0, -2.0, 0.0]]);
    let (number, second) = done(&mut s, &plain_light(&[3]));
    assert_eq!(number, 6);
    assert_eq!(
        write_set(&second),
        bytes("02 06 06 08 07 00 01 08 05 02 03 00 04 08 05")
    );
    let signal = s.file.signal(6).unwrap();
    assert_eq!(signal.housing, [[10.0, 0.6, 5.0], [10.0, -0.6, 5.0]]);
    assert_eq!(signal.height, Some(0.5));
    let colors: Vec<u8> = signal.bulbs.iter().map(|b| b.color).collect();
    assert_eq!(colors, [2, 1, 0]);
    assert!(s.file.rule(5).is_none());
    assert!(s.file.rule(7).is_some());
    let both = bytes("03 05 04 06 06 08 07 00 00 00");
    assert_eq!(s.fold_bytes(), both);
    assert_eq!(write_set(&fold::fold_all(&[first, second])), both);
}

#[test]
fn p4_p5() {
    for (offset, set) in [
        (12.0, "02 05 04 08 05 00 00 01 01 01 03"),
        (10.0, "02 05 04 08 05 00 00 00"),
    ] {
        let mut s = Run::open(crossing(2.0));
        assert_eq!(write_set(&done(&mut s, &at_end(offset)).1), bytes(set));
        assert_eq!(line_points(&s, 4), [[0.0, 2.0, 0.0], [0.0, -2.0, 0.0]]);
    }
}

#[test]
fn p6_p7() {
    let mut s = Run::open(crossing(2.0));
    assert_eq!(refused(&mut s, &at_end(-1.0)), Refusal::new(4, &[2]));
    let call = stop_sign(&[9, 3, 3], Placement::LaneEnd(0.0));
    assert_eq!(refused(&mut s, &call), Refusal::new(2, &[1, 9]));
    assert_eq!(s.file, crossing(2.0));
}

#[test]
fn p8() {
    let mut narrow = Run::open(crossing(0.0005));
    assert_eq!(refused(&mut narrow, &at_end(0.0)), Refusal::new(6, &[5]));
    done(&mut Run::open(crossing(0.00051)), &at_end(0.0));
}

#[test]
fn p9() {
    assert_eq!(2f64.sqrt().to_bits(), 0x3ff6_a09e_667f_3bcd);
    assert_eq!(f64::from_bits(1).sqrt().to_bits(), 0x1e60_0000_0000_0000);
    let x = oracle::vectormap::root_of_squares(1.0, 1.0);
    assert_eq!(x.to_bits(), 0x3ff6_a09e_667f_3bcd);
    assert_eq!((1e-9f64 * 1e-9).to_bits(), 0x3c32_725d_d1d2_43ac);
    assert_eq!(1e-18f64.to_bits(), 0x3c32_725d_d1d2_43ac);
}

#[test]
fn p10() {
    assert_eq!(write_number(127), [0x7f]);
    assert_eq!(write_number(128), [0x80, 1]);
    assert_eq!(read_number(&[0x80, 0]), Err(Bad));
}

#[test]
fn stations_past_the_end() {
    for (station, warnings) in [(10.0000000005, 0), (10.00000001, 1)] {
        let mut s = Run::open(crossing(2.0));
        let call = stop_sign(&[3], Placement::Station(station));
        assert_eq!(done(&mut s, &call).1.warnings.len(), warnings);
        assert_eq!(line_points(&s, 4), [[10.0, 2.0, 0.0], [10.0, -2.0, 0.0]]);
    }
}

#[test]
fn full_after_the_old_rule_goes() {
    let mut map = crossing(2.0);
    let other = |number| Rule {
        number,
        what: What::Other { kind: 1 },
        lanes: vec![],
        crosswalks: vec![],
    };
    map.rules = (100..226).map(other).collect();
    map.next = 300;
    let mut s = Run::open(map);
    done(&mut s, &at_end(0.0));
    done(&mut s, &at_end(1.0));
    assert_eq!(s.file.rules.len(), 128);
    let third = s.call(&at_end(2.0));
    assert_eq!(third, Verdict::LeftOut(Reason::Full, Refusal::new(10, &[])));
    let (_, set) = done(&mut s, &plain_light(&[3]));
    assert_eq!(set.deleted.len(), 1);
    assert_eq!(s.file.rules.len(), 128);
}

/// Lane 3 with line 4, a stop sign on it, and light 6 with the given line.
fn lit(line: Option<u64>) -> FileMap {
    let rule = |number, what, lanes| Rule {
        number,
        what,
        lanes,
        crosswalks: vec![],
    };
    let sign = What::Sign {
        sign_type: 1,
        sign: None,
        line: Some(4),
    };
    let signals = vec![];
    FileMap {
        next: 8,
        stop_lines: vec![Line {
            number: 4,
            points: vec![[5.0, 2.0, 0.0], [5.0, -2.0, 0.0]],
        }],
        rules: vec![
            rule(5, sign, vec![3]),
            rule(6, What::Light { signals, line }, vec![]),
        ],
        ..crossing(2.0)
    }
}

/// A light for the lanes that joins rule 6.
fn joining(lanes: &[u64], choice: Choice) -> Call {
    let Call::Light(light) = plain_light(lanes) else {
        unreachable!("a light")
    };
    Call::Light(NewLight {
        choice,
        group: Some(6),
        ..light
    })
}

/// 7 with detail 4 stands before all of placing, and behind the checks of
/// lanes and group, which are still compared.
#[test]
fn a_new_line_for_a_group_with_a_line() {
    let nowhere = Placement::Given(vec![]);
    for place in [Placement::LaneEnd(0.0), Placement::LaneEnd(-1.0), nowhere] {
        for line in [4, 50] {
            let mut s = Run::open(lit(Some(line)));
            let verdict = s.call(&joining(&[3], Choice::New(place.clone())));
            let want = Verdict::LeftOut(Reason::GroupLine, Refusal::new(7, &[4]));
            assert_eq!(verdict, want);
            assert_eq!(s.file, lit(Some(line)));
        }
        let mut s = Run::open(lit(Some(4)));
        let unknown = Outcome::Refused(Refusal::new(2, &[1, 9]));
        let verdict = s.call(&joining(&[9], Choice::New(place)));
        assert_eq!(verdict, Verdict::Answer(unknown));
    }
    let mut s = Run::open(lit(None));
    let end = Choice::New(Placement::LaneEnd(0.0));
    assert_eq!(done(&mut s, &joining(&[3], end)).0, 9);
}

/// No line for a group with a line is naming it: left out, with 01's answer.
#[test]
fn no_line_for_a_group_with_a_line() {
    let call = joining(&[3], Choice::None);
    let left_out = |r| Verdict::LeftOut(Reason::GroupLine, r);
    let mut s = Run::open(lit(Some(4)));
    assert_eq!(s.call(&call), left_out(Refusal::new(0, &[])));
    assert_eq!(s.file, lit(Some(4)));
    let named = s.named(&call).unwrap();
    assert_eq!(named, joining(&[3], Choice::Existing(4)));
    let (number, set) = done(&mut s, &named);
    assert_eq!(number, 8);
    assert_eq!(
        write_set(&set),
        bytes("01 06 08 01 08 06 01 08 05 02 03 00 04 08 05")
    );
    let mut s = Run::open(lit(Some(50)));
    assert_eq!(s.call(&call), left_out(Refusal::new(2, &[5, 50])));
    // A group without a line: the Rust's answer, and nothing is lifted.
    let mut s = Run::open(lit(None));
    assert_eq!(s.named(&call), None);
    assert_eq!(done(&mut s, &call).1.deleted, []);
}

/// The stop rules on the number of a line just drawn are lifted.
#[test]
fn a_rule_that_names_the_line_to_be_drawn() {
    let mut map = crossing(2.0);
    map.rules = vec![Rule {
        number: 6,
        what: What::Marking { line: 8 },
        lanes: vec![3, 77, 3],
        crosswalks: vec![],
    }];
    map.next = 8;
    let mut s = Run::open(map);
    let Call::Light(light) = plain_light(&[3]) else {
        unreachable!("a light")
    };
    let choice = Choice::New(Placement::LaneEnd(0.0));
    let (number, set) = done(&mut s, &Call::Light(NewLight { choice, ..light }));
    assert_eq!(number, 9);
    assert_eq!(
        write_set(&set),
        bytes("03 05 08 06 09 08 0a 01 08 06 00 02 03 00 04 08 06")
    );
    assert_eq!(s.file.rule(6).unwrap().lanes, [77]);
}

#[test]
fn an_absent_line_of_a_rule_is_left_out() {
    let mut map = crossing(2.0);
    map.rules = vec![Rule {
        number: 2,
        what: What::Marking { line: 50 },
        lanes: vec![3],
        crosswalks: vec![],
    }];
    let mut s = Run::open(map);
    let want = Verdict::LeftOut(Reason::AbsentLine, Refusal::new(2, &[5, 50]));
    assert_eq!(s.call(&plain_light(&[3])), want);
}

/// Lane and side of the left end, then of the right; nothing for no names.
fn ends(map: FileMap, call: &Call) -> Vec<u64> {
    named(&mut Run::open(map), call)
}

fn named(run: &mut Run, call: &Call) -> Vec<u64> {
    let words = |end: End| [end.lane, end.side.into()];
    match run.call(call) {
        Verdict::Answer(Outcome::Done { ends, .. }) => {
            ends.iter().flatten().flat_map(|e| words(*e)).collect()
        }
        other => panic!("{other:?}"),
    }
}

/// Lane 6 beside lane 3, between boundaries 2 and 5.
fn two_lanes() -> FileMap {
    let mut map = crossing(2.0);
    map.lanes.push(Lane {
        number: 6,
        left: 2,
        right: 5,
        ..map.lanes[0].clone()
    });
    map.boundaries.push(Line {
        number: 5,
        points: vec![[0.0, -6.0, 0.0], [10.0, -6.0, 0.0]],
    });
    map.next = 7;
    map
}

/// Lane 6 on lane 3.
fn one_on_another() -> FileMap {
    let mut map = crossing(2.0);
    map.lanes.push(Lane {
        number: 6,
        ..map.lanes[0].clone()
    });
    map.next = 7;
    map
}

#[test]
fn ends_of_drawn_lines() {
    let at_end = |lanes: &[u64]| stop_sign(lanes, Placement::LaneEnd(0.0));
    assert_eq!(ends(crossing(2.0), &at_end(&[3])), [3, 0, 3, 1]);
    assert_eq!(ends(two_lanes(), &at_end(&[3, 6])), [3, 0, 6, 1]);
    assert_eq!(ends(two_lanes(), &at_end(&[6, 3])), [3, 0, 6, 1]);
    assert_eq!(ends(one_on_another(), &at_end(&[6, 3])), [6, 0, 6, 1]);
    assert_eq!(ends(one_on_another(), &at_end(&[3, 6])), [3, 0, 3, 1]);
    let mut crosswise = crossing(2.0);
    (crosswise.lanes[0].left, crosswise.lanes[0].right) = (2, 1);
    assert_eq!(ends(crosswise, &at_end(&[3])), [3, 1, 3, 0]);
    // As doubles 0 and -0 are equal, as patterns they are not.
    let sides = zeros().boundaries;
    let nearest = |b: &Line| convert::polyline(&b.points).nearest_point(Point2::new(0.0, 0.0));
    let y = |b: &Line| nearest(b).unwrap().point.y.to_bits();
    assert_eq!((y(&sides[0]), y(&sides[1])), (0, 1 << 63));
    let at_start = |lanes: &[u64]| stop_sign(lanes, Placement::Station(0.0));
    assert_eq!(ends(zeros(), &at_start(&[4, 5])), [4, 0, 4, 1]);
    assert_eq!(ends(zeros(), &at_start(&[5, 4])), [5, 0, 5, 1]);
}

/// One boundary goes round the lane: forward it is the left side, backwards
/// the right one.
#[test]
fn ends_on_one_boundary() {
    let mut map = crossing(2.0);
    map.boundaries[0].points = vec![
        [0.0, 2.0, 0.0],
        [10.0, 2.0, 0.0],
        [10.0, -2.0, 0.0],
        [0.0, -2.0, 0.0],
    ];
    map.lanes[0].right = 1;
    map.lanes[0].right_reversed = true;
    map.lanes[0].centerline = Some(vec![[0.0; 3], [5.0, 0.0, 0.0]]);
    let mut s = Run::open(map);
    assert_eq!(named(&mut s, &at_end(0.0)), [3, 0, 3, 1]);
    assert_eq!(line_points(&s, 4), [[5.0, 2.0, 0.0], [5.0, -2.0, 0.0]]);
}

#[test]
fn ends_of_lights() {
    let light = |choice: Choice| {
        let Call::Light(light) = plain_light(&[3]) else {
            unreachable!()
        };
        Call::Light(NewLight { choice, ..light })
    };
    let given = || Placement::Given(vec![[5.0, 2.0, 0.0], [5.0, -2.0, 0.0]]);
    let new = |p: Placement| light(Choice::New(p));
    let both = [3, 0, 3, 1];
    assert_eq!(ends(crossing(2.0), &stop_sign(&[3], given())), []);
    assert_eq!(ends(crossing(2.0), &new(given())), []);
    assert_eq!(ends(crossing(2.0), &new(Placement::Station(4.0))), both);
    assert_eq!(ends(crossing(2.0), &new(Placement::LaneEnd(4.0))), both);
    // A section is worked out for the anchor only.
    assert_eq!(ends(crossing(2.0), &light(Choice::None)), []);
    let mut s = Run::open(crossing(2.0));
    assert_eq!(named(&mut s, &light(Choice::Auto)), both);
    assert_eq!(named(&mut s, &light(Choice::Auto)), []);
    assert_eq!(named(&mut s, &light(Choice::Existing(4))), []);
    assert_eq!(named(&mut s, &light(Choice::None)), []);
}

/// What was placed outside of an answer is not told later.
#[test]
fn ends_are_not_left_over() {
    let mut map = convert::to_map(&crossing(2.0));
    edits::run(&mut map, &at_end(0.0)).unwrap();
    let Call::Light(light) = plain_light(&[3]) else {
        unreachable!()
    };
    let choice = Choice::None;
    let plain = Call::Light(NewLight { choice, ..light });
    assert_eq!(ends(crossing(2.0), &plain), []);
}

#[test]
fn seventeen_lanes_without_a_rule() {
    let mut map = crossing(2.0);
    for number in 10..26 {
        let number = Lane {
            number,
            ..map.lanes[0].clone()
        };
        map.lanes.push(number);
    }
    map.next = 40;
    let mut line = NewLine {
        lanes: map.lanes.iter().map(|l| l.number).collect(),
        placement: Placement::LaneEnd(0.0),
        rule: StopRule::None,
    };
    let mut s = Run::open(map);
    let (_, set) = done(&mut s, &Call::Line(line.clone()));
    assert_eq!(write_set(&set), bytes("01 05 28 00 00 01 02 05 28"));
    line.rule = StopRule::Marking;
    let full = Verdict::LeftOut(Reason::Full, Refusal::new(10, &[]));
    assert_eq!(s.call(&Call::Line(line)), full);
}

/// 9 for a fifth lamp comes before 10 for five.
#[test]
fn five_lamps() {
    let lamp = |x: f64| Bulb {
        at: [x, 0.0, 5.0],
        color: 0,
        arrow: 0,
    };
    let edge = MAX_COORDINATE;
    let (off, full) = (
        Verdict::LeftOut(Reason::OffMap, Refusal::new(9, &[])),
        Verdict::LeftOut(Reason::Full, Refusal::new(10, &[])),
    );
    for (fifth, want) in [
        (10.0, &full),
        (edge, &full),
        (edge.next_up(), &off),
        (f64::INFINITY, &off),
        (f64::NAN, &off),
    ] {
        let Call::Light(mut light) = plain_light(&[3]) else {
            unreachable!()
        };
        let mut bulbs = vec![lamp(10.0); 4];
        bulbs.push(lamp(fifth));
        light.bulbs = Some(bulbs);
        let mut s = Run::open(crossing(2.0));
        assert_eq!(s.call(&Call::Light(light)), *want, "{fifth}");
    }
}

#[test]
fn numbers_spent() {
    let mut map = crossing(2.0);
    map.next = u64::MAX - 1;
    let mut s = Run::open(map);
    let spent = Verdict::LeftOut(Reason::Spent, Refusal::new(11, &[]));
    assert_eq!(s.call(&at_end(0.0)), spent);
    let alone = Call::Line(NewLine {
        lanes: vec![3],
        placement: Placement::LaneEnd(0.0),
        rule: StopRule::None,
    });
    assert_eq!(done(&mut s, &alone).0, u64::MAX - 1);
    assert_eq!(s.file.next, u64::MAX);
    assert_eq!(s.call(&alone), spent);
}
