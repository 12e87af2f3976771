//! The three edits as other languages call them (include/lane_map.h), on memory that a caller lends.

use crate::tables::{SET_WORDS, Tables, set_of};
use oracle::codec::{FileMap, FileSet};
use oracle::edits::{Call, Choice, NewLight, NewLine, NewLinks, Outcome, Placement, StopRule};
use oracle::generate::Caller;
use oracle::rng::Rng;
use oracle::run::{Run, Verdict};

/// How many words an answer has: what, number, two details, whether the ends are named, lane and side of the left end and of the right.
pub const ANSWER: usize = 9;

/// The answer to what is no call: its first word.
pub const NO_CALL: u64 = 255;

mod c {
    use super::ANSWER;

    unsafe extern "C" {
        pub fn lane_map_add_stop_line(
            words: *mut u64,
            words_len: usize,
            coords: *mut f64,
            coords_len: usize,
            fold: *mut u64,
            fold_len: usize,
            tally: *mut [u64; 3],
            set: *mut u64,
            set_len: usize,
            lanes: *const u64,
            lanes_len: usize,
            placement: u64,
            measure: f64,
            given: *const f64,
            given_len: usize,
            rule: u64,
            answer: *mut [u64; ANSWER],
        ) -> u64;
        pub fn lane_map_add_traffic_signal(
            words: *mut u64,
            words_len: usize,
            coords: *mut f64,
            coords_len: usize,
            fold: *mut u64,
            fold_len: usize,
            tally: *mut [u64; 3],
            set: *mut u64,
            set_len: usize,
            lanes: *const u64,
            lanes_len: usize,
            numbers: *const [u64; 17],
            measure: f64,
            height: f64,
            points: *const f64,
            points_len: usize,
            housing: *const f64,
            housing_len: usize,
            lamps: *const f64,
            lamps_len: usize,
            answer: *mut [u64; ANSWER],
        ) -> u64;
        pub fn lane_map_set_regulatory_links(
            words: *mut u64,
            words_len: usize,
            coords: *mut f64,
            coords_len: usize,
            fold: *mut u64,
            fold_len: usize,
            tally: *mut [u64; 3],
            set: *mut u64,
            set_len: usize,
            rule: u64,
            lanes: *const u64,
            lanes_len: usize,
            crosswalks: *const u64,
            crosswalks_len: usize,
            lines: *const u64,
            lines_len: usize,
            answer: *mut [u64; ANSWER],
        ) -> u64;
        pub fn lane_map_run_calls(
            words: *mut u64,
            words_len: usize,
            coords: *mut f64,
            coords_len: usize,
            fold: *mut u64,
            fold_len: usize,
            tally: *mut [u64; 3],
            set: *mut u64,
            set_len: usize,
            calls: *const u64,
            calls_len: usize,
            lists: *const u64,
            lists_len: usize,
            reals: *const f64,
            reals_len: usize,
            answers: *mut u64,
            answers_len: usize,
        ) -> u64;
    }
}

/// What a call is lent.
#[derive(Clone)]
pub struct Lent {
    pub tables: Tables,
    pub fold: Vec<u64>,
    pub tally: [u64; 3],
    pub set: Vec<u64>,
}

/// A light's arguments as the boundary takes them. Numbers: 0 choice, 1 existing line, 2 placement, 3 housing given, 4 height given,
/// 5 kind, 6 lamps given, 7 to 14 colour and arrow of four lamps, 15 group given, 16 group.
pub struct LightArgs {
    pub lanes: Vec<u64>,
    pub numbers: [u64; 17],
    pub measure: f64,
    pub height: f64,
    pub points: Vec<f64>,
    pub housing: Vec<f64>,
    pub lamps: Vec<f64>,
}

/// A call's arguments as the boundary takes them.
pub enum Args {
    Line {
        lanes: Vec<u64>,
        placement: u64,
        measure: f64,
        given: Vec<f64>,
        rule: u64,
    },
    Light(LightArgs),
    Links(NewLinks),
}

fn placed(p: &Placement) -> (u64, f64, Vec<f64>) {
    match p {
        Placement::LaneEnd(x) => (0, *x, vec![]),
        Placement::Station(x) => (1, *x, vec![]),
        Placement::Given(ps) => (2, 0.0, ps.concat()),
    }
}

impl LightArgs {
    fn of(l: &NewLight) -> Self {
        let mut numbers = [0; 17];
        let (mut measure, mut points) = (0.0, vec![]);
        match &l.choice {
            Choice::Auto => {}
            Choice::Existing(s) => {
                numbers[0] = 1;
                numbers[1] = *s;
            }
            Choice::New(p) => {
                numbers[0] = 2;
                (numbers[2], measure, points) = placed(p);
            }
            Choice::None => numbers[0] = 3,
        }
        numbers[3] = l.housing.is_some().into();
        numbers[4] = l.height.is_some().into();
        numbers[5] = l.pedestrian.into();
        numbers[6] = l.bulbs.is_some().into();
        for (i, b) in l.bulbs.iter().flatten().take(4).enumerate() {
            numbers[7 + i * 2] = b.color.into();
            numbers[8 + i * 2] = b.arrow.into();
        }
        numbers[15] = l.group.is_some().into();
        numbers[16] = l.group.unwrap_or(0);
        LightArgs {
            lanes: l.lanes.clone(),
            numbers,
            measure,
            height: l.height.unwrap_or(0.0),
            points,
            housing: l.housing.as_ref().map_or(vec![], |h| h.concat()),
            lamps: l.bulbs.iter().flatten().flat_map(|b| b.at).collect(),
        }
    }

    pub fn measured(&self) -> bool {
        self.numbers[0] == 2 && self.numbers[2] < 2
    }

    pub fn pointed(&self) -> bool {
        self.numbers[0] == 2 && self.numbers[2] == 2
    }

    /// Of how many lamps colour and arrow are read.
    fn looks(&self) -> usize {
        let n = self.lamps.len().div_ceil(3).min(4);
        if self.numbers[6] == 0 { 0 } else { n }
    }

    fn smear(&mut self, rng: &mut Rng) {
        let (measured, pointed) = (self.measured(), self.pointed());
        for i in [3, 4, 6, 15] {
            // a flag is yes for any number but 0
            if self.numbers[i] != 0 {
                self.numbers[i] = rng.bits().max(1);
            }
        }
        if !measured {
            self.measure = any(rng);
        }
        if !pointed {
            self.points = anything(rng);
        }
        if self.numbers[4] == 0 {
            self.height = any(rng);
        }
        if self.numbers[3] == 0 {
            self.housing = anything(rng);
        }
        if self.numbers[6] == 0 {
            self.lamps = anything(rng);
        }
        let looks = self.looks();
        let n = &mut self.numbers;
        if n[0] != 1 {
            n[1] = rng.bits();
        }
        if n[0] != 2 {
            n[2] = rng.bits();
        }
        if n[15] == 0 {
            n[16] = rng.bits();
        }
        n[7 + looks * 2..15].fill_with(|| rng.bits());
    }

    fn spoil(&mut self, rng: &mut Rng) {
        let looks = self.looks();
        let n = &mut self.numbers;
        match rng.below(4) {
            0 if looks > 0 => n[7 + rng.below(looks) * 2] = above(rng, 3),
            1 if looks > 0 => n[8 + rng.below(looks) * 2] = above(rng, 8),
            2 if n[0] == 2 => n[2] = above(rng, 2),
            3 => n[5] = above(rng, 1),
            _ => n[0] = above(rng, 3),
        }
    }
}

fn any(rng: &mut Rng) -> f64 {
    rng.pick(&[f64::NAN, f64::INFINITY, -1.0, 0.0, 1e300])
}

fn anything(rng: &mut Rng) -> Vec<f64> {
    (0..rng.below(8)).map(|_| any(rng)).collect()
}

/// Just above the last case, or far.
fn above(rng: &mut Rng, last: u64) -> u64 {
    rng.pick(&[last + 1, last + 2, 255, u64::MAX])
}

impl Args {
    pub fn of(call: &Call) -> Self {
        match call {
            Call::Line(NewLine {
                lanes,
                placement,
                rule,
            }) => {
                let (placement, measure, given) = placed(placement);
                Args::Line {
                    lanes: lanes.clone(),
                    placement,
                    measure,
                    given,
                    rule: match rule {
                        StopRule::Sign => 0,
                        StopRule::Marking => 1,
                        StopRule::None => 2,
                    },
                }
            }
            Call::Light(l) => Args::Light(LightArgs::of(l)),
            Call::Links(l) => Args::Links(l.clone()),
        }
    }

    /// What the call does not read must not matter: anything is put there.
    pub fn smear(&mut self, rng: &mut Rng) {
        match self {
            Args::Line {
                placement,
                measure,
                given,
                ..
            } => {
                if *placement == 2 {
                    *measure = any(rng);
                } else {
                    *given = anything(rng);
                }
            }
            Args::Light(l) => l.smear(rng),
            Args::Links(_) => {}
        }
    }

    /// A number that is read becomes no case of its enum. Links have no enum; then the answer is false.
    pub fn spoil(&mut self, rng: &mut Rng) -> bool {
        match self {
            Args::Line {
                placement, rule, ..
            } => {
                if rng.percent(50) {
                    *placement = above(rng, 2);
                } else {
                    *rule = above(rng, 2);
                }
            }
            Args::Light(l) => l.spoil(rng),
            Args::Links(_) => return false,
        }
        true
    }
}

/// A random call, and its arguments as they are handed over: in half of them what is not read is anything, and in some lights the
/// last lamp lacks coordinates, which the Rust's call has as not finite.
pub fn draw(caller: &Caller, rng: &mut Rng, run: &Run) -> (Call, Args) {
    let mut call = caller.call(rng, run);
    let mut lacks = 0;
    if let Call::Light(light) = &mut call
        && let Some(last) = light.bulbs.iter_mut().flatten().last()
        && rng.percent(10)
    {
        lacks = rng.between(1, 2);
        last.at[3 - lacks..].fill(f64::NAN);
    }
    let mut args = Args::of(&call);
    if let Args::Light(l) = &mut args {
        l.lamps.truncate(l.lamps.len() - lacks);
    }
    if rng.percent(50) {
        args.smear(rng);
    }
    (call, args)
}

/// What is wrong with lent memory: 12 for the map's, else 13, or 0 for nothing. Both are drawn, so that 12 is also seen before 13.
pub fn damage(lent: &mut Lent, rng: &mut Rng, percent: usize) -> u64 {
    let map = rng.percent(percent);
    let fold = rng.percent(percent);
    if map {
        match rng.below(4) {
            0 => lent.tables.words[1 + rng.below(6)] = 129 + rng.below(1000) as u64,
            1 => lent.tables.words.push(0),
            2 => drop(lent.tables.coords.pop()),
            _ => {
                lent.tables.words[0] = 9;
                lent.tables.words[2] = 2;
                lent.tables.words[519..523].copy_from_slice(&[5, 0, 5, 0]);
            }
        }
    }
    if fold {
        match rng.below(5) {
            0 => lent.tally[rng.below(3)] = 1,
            1 => lent.fold[3] = 1,
            2 => drop(lent.fold.pop()),
            3 => drop(lent.set.pop()),
            _ => {
                lent.fold[0] = 1;
                lent.fold[4] = 8;
                lent.fold[5] = u64::MAX;
                lent.tally[0] = 1;
            }
        }
    }
    match (map, fold) {
        (true, _) => 12,
        (_, true) => 13,
        _ => 0,
    }
}

/// An answer that says no more than its first word.
pub fn only(what: u64) -> [u64; ANSWER] {
    let mut words = [0; ANSWER];
    words[0] = what;
    words
}

/// The words that a call is to be answered with, by what the oracle says of it: a word that has nothing to say is 0.
pub fn wanted(call: &Call, verdict: &Verdict) -> [u64; ANSWER] {
    let mut words = [0; ANSWER];
    match verdict {
        Verdict::Answer(Outcome::Done { number, ends, .. }) => {
            // The Rust answers no number for links; here it is the rule's.
            words[1] = match call {
                Call::Links(l) => l.rule,
                _ => *number,
            };
            if let Some([left, right]) = ends {
                let names = [left.lane, left.side.into(), right.lane, right.side.into()];
                words[4] = 1;
                words[5..].copy_from_slice(&names);
            }
        }
        Verdict::Answer(Outcome::Refused(r)) | Verdict::LeftOut(_, r) => {
            words[0] = r.number.into();
            words[2..2 + r.details.len()].copy_from_slice(&r.details);
        }
        _ => panic!("the Rust and the model disagree: {verdict:?}"),
    }
    words
}

/// Lines whose ends are named, and those of them at which another side lies as far out: so many by the Rust's answers.
#[derive(Default)]
pub struct EndCounts {
    pub named: usize,
    pub ties: usize,
}

impl EndCounts {
    /// An answer, and the run as the call left it.
    pub fn note(&mut self, verdict: &Verdict, run: &Run) {
        if let Verdict::Answer(Outcome::Done { ends: Some(_), .. }) = verdict {
            self.named += 1;
            self.ties += usize::from(run.rivals.iter().any(|r| !r.is_empty()));
        }
    }
}

impl Lent {
    pub fn open(map: &FileMap) -> Self {
        Lent {
            tables: Tables::of(map),
            fold: vec![0; SET_WORDS],
            tally: [0; 3],
            set: vec![0; SET_WORDS],
        }
    }

    pub fn call(&mut self, args: &Args) -> [u64; ANSWER] {
        // what stands there before must not matter
        let mut answer = [u64::MAX; ANSWER];
        let (words, coords) = (&mut self.tables.words, &mut self.tables.coords);
        let (w, wn) = (words.as_mut_ptr(), words.len());
        let (x, xn) = (coords.as_mut_ptr(), coords.len());
        let (f, fl) = (self.fold.as_mut_ptr(), self.fold.len());
        let (s, sn) = (self.set.as_mut_ptr(), self.set.len());
        let t = &mut self.tally;
        let code = unsafe {
            match args {
                Args::Line {
                    lanes,
                    placement,
                    measure,
                    given,
                    rule,
                } => c::lane_map_add_stop_line(
                    w,
                    wn,
                    x,
                    xn,
                    f,
                    fl,
                    t,
                    s,
                    sn,
                    lanes.as_ptr(),
                    lanes.len(),
                    *placement,
                    *measure,
                    given.as_ptr(),
                    given.len(),
                    *rule,
                    &mut answer,
                ),
                Args::Light(l) => c::lane_map_add_traffic_signal(
                    w,
                    wn,
                    x,
                    xn,
                    f,
                    fl,
                    t,
                    s,
                    sn,
                    l.lanes.as_ptr(),
                    l.lanes.len(),
                    &l.numbers,
                    l.measure,
                    l.height,
                    l.points.as_ptr(),
                    l.points.len(),
                    l.housing.as_ptr(),
                    l.housing.len(),
                    l.lamps.as_ptr(),
                    l.lamps.len(),
                    &mut answer,
                ),
                Args::Links(l) => c::lane_map_set_regulatory_links(
                    w,
                    wn,
                    x,
                    xn,
                    f,
                    fl,
                    t,
                    s,
                    sn,
                    l.rule,
                    l.lanes.as_ptr(),
                    l.lanes.len(),
                    l.crosswalks.as_ptr(),
                    l.crosswalks.len(),
                    l.lines.as_ptr(),
                    l.lines.len(),
                    &mut answer,
                ),
            }
        };
        assert_eq!(code, answer[0], "the result is the answer's first word");
        answer
    }

    /// A list of calls: the rows and their lists of numbers, then those of doubles.
    pub fn run_calls(
        &mut self,
        [calls, lists]: [&[u64]; 2],
        reals: &[f64],
        answers: &mut [u64],
    ) -> u64 {
        let (w, x) = (&mut self.tables.words, &mut self.tables.coords);
        unsafe {
            c::lane_map_run_calls(
                w.as_mut_ptr(),
                w.len(),
                x.as_mut_ptr(),
                x.len(),
                self.fold.as_mut_ptr(),
                self.fold.len(),
                &mut self.tally,
                self.set.as_mut_ptr(),
                self.set.len(),
                calls.as_ptr(),
                calls.len(),
                lists.as_ptr(),
                lists.len(),
                reals.as_ptr(),
                reals.len(),
                answers.as_mut_ptr(),
                answers.len(),
            )
        }
    }

    pub fn fold_set(&self) -> FileSet {
        set_of(&self.fold)
    }

    /// Every byte the same, NaN patterns too.
    pub fn same(&self, other: &Lent) -> bool {
        let bits = |a: &[f64], b: &[f64]| a.iter().zip(b).all(|(x, y)| x.to_bits() == y.to_bits());
        self.tables.words == other.tables.words
            && bits(&self.tables.coords, &other.tables.coords)
            && self.fold == other.fold
            && self.tally == other.tally
            && self.set == other.set
    }
}
