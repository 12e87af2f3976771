//! edits [CALLS] [SEED]: random calls in runs, the proved edits beside the Rust's. After each call: all words of the answer (what,
//! number, details, the names of the ends), change set bytes, map bytes, fold bytes, tally; after a refusal, every byte of the lent
//! memory. Where 01 answers and the Rust does not (9, 10, 11, an absent line, a new line for a group with a line), the comparison is
//! with the model of 01; no line for such a group is to be answered as the Rust answers the group's line by its number. Numbers that
//! are no case of their enum, and memory that is no opened map's, are tried beside them.

use bench::edits::{EndCounts, Lent, NO_CALL, damage, draw, only, wanted};
use bench::tables::set_of;
use oracle::codec::{MAX_BULBS, write_map, write_set};
use oracle::edits::{Call, NewLight, Outcome};
use oracle::generate::Caller;
use oracle::maps::{Size, random_map};
use oracle::protocol::write_call;
use oracle::rng::Rng;
use oracle::run::{Run, Verdict};
use std::collections::BTreeMap;

/// What stands in spare room must not matter, and must stay where a call is refused.
fn smear(lent: &mut Lent, rng: &mut Rng) {
    for s in lent.set.iter_mut() {
        *s = rng.bits();
    }
    for f in lent.fold[4..].iter_mut() {
        *f = rng.bits();
    }
}

fn main() {
    let mut args = std::env::args().skip(1);
    let calls: usize = args.next().map_or(100_000, |a| a.parse().unwrap());
    let seed: u64 = args.next().map_or(1, |a| a.parse().unwrap());
    let mut rng = Rng::new(seed);
    let mut hits: BTreeMap<(u8, u64), usize> = BTreeMap::new();
    let (mut asked, mut done, mut runs, mut none, mut differ) = (0, 0, 0, 0, 0);
    // 9 and 10 of lights with more than four lamps
    let mut many = [0; 2];
    // no line beside a group's: the Rust is asked for the group's by its number
    let mut joined = 0;
    let mut ends = EndCounts::default();
    while asked < calls {
        let size = Size::mixed(&mut rng);
        let mut run = Run::open(random_map(&mut rng, size));
        let caller = Caller::new(&run);
        let mut lent = Lent::open(&run.file);
        smear(&mut lent, &mut rng);
        runs += 1;
        for _ in 0..rng.between(1, 40) {
            let (call, args) = draw(&caller, &mut rng, &run);
            let before = lent.clone();
            if rng.percent(10) {
                let (_, mut spoilt) = draw(&caller, &mut rng, &run);
                if spoilt.spoil(&mut rng) {
                    none += 1;
                    let answer = lent.call(&spoilt);
                    assert_eq!(answer, only(NO_CALL));
                    assert!(lent.same(&before));
                }
            }
            let file = write_map(&run.file);
            let fold = run.fold_bytes();
            let got = lent.call(&args);
            asked += 1;
            let named = run.named(&call);
            joined += usize::from(named.is_some());
            let like = named.as_ref().unwrap_or(&call);
            let verdict = run.call(like);
            let want = wanted(like, &verdict);
            ends.note(&verdict, &run);
            let left = match verdict {
                Verdict::Answer(Outcome::Done { set, .. }) => {
                    done += 1;
                    let f = lent.fold_set();
                    write_set(&set_of(&lent.set)) == write_set(&set)
                        && write_map(&lent.tables.map()) == run.map_bytes()
                        && write_set(&f) == run.fold_bytes()
                        && lent.tally.map(|n| n as usize)
                            == [f.created.len(), f.modified.len(), f.deleted.len()]
                }
                Verdict::Answer(Outcome::Refused(r)) | Verdict::LeftOut(_, r) => {
                    if let Call::Light(NewLight { bulbs: Some(b), .. }) = &call
                        && b.len() > MAX_BULBS
                        && let 9 | 10 = r.number
                    {
                        many[usize::from(r.number) - 9] += 1;
                    }
                    *hits
                        .entry((r.number, r.details.first().copied().unwrap_or(0)))
                        .or_default() += 1;
                    lent.same(&before)
                }
                _ => unreachable!("no such answer is wanted"),
            };
            if got != want || !left {
                differ += 1;
                if differ <= 5 {
                    println!("difference: {got:?}, wanted {want:?}, memory as wanted: {left}");
                    println!("  map  {}", oracle::codec::to_hex(&file));
                    println!("  fold {}", oracle::codec::to_hex(&fold));
                    println!("  call {}", write_call(&call));
                }
                break;
            }
        }
    }
    println!("{asked} calls in {runs} runs, {done} carried out, {differ} differences");
    println!("ends named {}, with a tie {}", ends.named, ends.ties);
    println!("no line for a group with a line, as if it were named: {joined}");
    println!(
        "more than four lamps: 9: {}, 10: {}; {none} that were no call",
        many[0], many[1]
    );
    let one = |(n, d): &(u8, u64), c: &usize| match n {
        2..=8 => format!("{n}/{d}: {c}"),
        _ => format!("{n}: {c}"),
    };
    let hits: Vec<String> = hits.iter().map(|(k, c)| one(k, c)).collect();
    println!("refused {}", hits.join(", "));
    foreign(&mut rng);
    std::process::exit((differ > 0).into());
}

/// Memory that is no opened map's: 12 and 13, each before all else, also before what is no call, and nothing altered.
fn foreign(rng: &mut Rng) {
    let mut refused = BTreeMap::new();
    while refused.values().sum::<usize>() < 2_000 {
        let run = Run::open(random_map(rng, Size::Small));
        let caller = Caller::new(&run);
        let (call, mut args) = draw(&caller, rng, &run);
        let none = rng.percent(30) && args.spoil(rng);
        let mut lent = Lent::open(&run.file);
        let want = match damage(&mut lent, rng, 50) {
            0 if none => NO_CALL,
            0 => continue,
            bad => bad,
        };
        let before = lent.clone();
        let got = lent.call(&args);
        assert_eq!(got, only(want), "{}", write_call(&call));
        assert!(lent.same(&before));
        *refused.entry(want).or_insert(0) += 1;
    }
    println!("memory of another's: {refused:?}");
}
