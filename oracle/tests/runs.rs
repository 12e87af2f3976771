//! Random runs: the Rust and 01's order of refusals agree, and every answer
//! is reached.

use oracle::codec::{MAX_BULBS, MAX_COORDINATE};
use oracle::edits::{Call, Outcome};
use oracle::generate::{Caller, Form, generate};
use oracle::maps::{Size, random_map};
use oracle::protocol::{Server, read_call, replay, write_call};
use oracle::rng::Rng;
use oracle::run::{Reason, Run, Verdict};

fn agree(size: Size, runs: usize, least: usize) {
    let mut text = vec![];
    let form = Form {
        brief: true,
        left_out: true,
    };
    let tally = generate(5, runs, Some(size), form, &mut text).unwrap();
    assert_eq!(tally.disagreements, Vec::<String>::new());
    assert_eq!(tally.rare(least), vec![]);
    let (answers, differences) = replay(&String::from_utf8(text).unwrap());
    assert_eq!(differences, Vec::<String>::new());
    let left_out: usize = tally.left_out.values().sum();
    assert_eq!(answers, tally.calls + left_out + 2 * runs + 1);
}

#[test]
fn small_maps() {
    agree(Size::Small, 500, 10);
}

#[test]
fn medium_maps() {
    agree(Size::Medium, 300, 5);
}

#[test]
fn large_maps() {
    agree(Size::Large, 60, 1);
}

/// The Rust and 01 name the same ends where several sides lie as far out.
#[test]
fn ties() {
    agree(Size::Shared, 500, 5);
    let form = Form::default();
    let tally = generate(6, 500, Some(Size::Shared), form, &mut std::io::sink()).unwrap();
    assert_eq!(tally.disagreements, Vec::<String>::new());
    let ties = [
        "at both",
        "at the left only",
        "at the right only",
        "won against a lane of a lower number",
        "won against a lane of a higher number",
        "within a lane",
        "of a right side with a left one",
        "on one boundary",
        "of two boundaries",
    ];
    let mut names: Vec<String> = ties.iter().map(|t| format!("ends, tie {t}")).collect();
    names.push("ends, both on one boundary".into());
    for name in names {
        let n = tally.shapes.get(&name).copied().unwrap_or(0);
        assert!(n >= 25, "{name}: {n}");
    }
}

#[test]
fn calls_as_text() {
    let mut rng = Rng::new(9);
    for _ in 0..100 {
        let run = Run::open(random_map(&mut rng, Size::Small));
        let caller = Caller::new(&run);
        for _ in 0..20 {
            let text = write_call(&caller.call(&mut rng, &run));
            let back = read_call(&text).unwrap();
            assert_eq!(write_call(&back), text);
        }
    }
}

/// 9 is asked of every lamp, also of those past the fourth, and 10 after it.
#[test]
fn lamps_past_the_fourth() {
    let mut rng = Rng::new(10);
    let (mut late, mut full) = (0, 0);
    for _ in 0..1000 {
        let mut run = Run::open(random_map(&mut rng, Size::Small));
        let caller = Caller::new(&run);
        for _ in 0..20 {
            let call = caller.call(&mut rng, &run);
            let verdict = run.call(&call);
            let Call::Light(light) = &call else { continue };
            let Some(bulbs) = light.bulbs.as_ref().filter(|b| b.len() > MAX_BULBS) else {
                continue;
            };
            let bad = |at: &[f64; 3]| at.iter().any(|c| !(c.abs() <= MAX_COORDINATE));
            match verdict {
                Verdict::LeftOut(Reason::OffMap, _) => {
                    late += usize::from(!bulbs[..MAX_BULBS].iter().any(|b| bad(&b.at)));
                }
                Verdict::LeftOut(Reason::Full, _) => {
                    assert!(!bulbs.iter().any(|b| bad(&b.at)), "{}", write_call(&call));
                    full += 1;
                }
                Verdict::LeftOut(..) => {}
                Verdict::Answer(o) => assert!(matches!(o, Outcome::Refused(_))),
                Verdict::Disagree(d) => panic!("{d:?}"),
            }
        }
    }
    assert!(late >= 30 && full >= 30, "{late} {full}");
}

#[test]
fn bad_requests() {
    let mut server = Server::default();
    for bad in [
        "",
        "line",
        "line 1 3 0 0000000000000000 0",
        "map 0",
        "map zz",
        "geom",
        "geom nothing 1",
        "geom abs 0",
        "geom abs 0000000000000000 0",
        "file",
    ] {
        assert!(server.answer(bad).starts_with("error "), "{bad}");
    }
    assert_eq!(server.answer("map 00000000000000"), "ok");
    for bad in [
        "line 1 3 3 0000000000000000 0",
        "line 1 3 0 0000000000000000 3",
        "line 1 3 0 0000000000000000 0 ",
        "line 2 3 0 0000000000000000 0",
        "light 1 3 4 0 0 0 0 0",
    ] {
        assert!(server.answer(bad).starts_with("error "), "{bad}");
    }
    assert_eq!(server.answer("map 80"), "refused 12");
    assert_eq!(server.answer("set -"), "refused 13");
}
