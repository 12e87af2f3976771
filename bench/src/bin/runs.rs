//! runs [RUNS] [SEED]: random runs handed over whole, beside the Rust's run: a map file and a list of calls, carried out by one call
//! of the proved code; and the same list on tables that are open. Compared: all words of each row's answer, the map, the fold and its
//! file, the tally, the last change set; a buffer that is too short; and every byte that was lent where the run is refused.

use bench::edits::{ANSWER, Args, EndCounts, Lent, NO_CALL, damage, draw, only, wanted};
use bench::files::run_opened;
use bench::tables::set_of;
use oracle::codec::{FileSet, to_hex, write_map, write_set};
use oracle::edits::Outcome;
use oracle::generate::Caller;
use oracle::maps::{Size, random_map};
use oracle::rng::Rng;
use oracle::run::{Run, Verdict};

const ROW: usize = 28;

fn noise(rng: &mut Rng, n: usize) -> Vec<u64> {
    (0..n).map(|_| rng.bits()).collect()
}

/// A row, in which what is not read is anything; and the words of the places that it reads, with whether a count follows.
struct Row {
    words: [u64; ROW],
    places: Vec<(usize, bool)>,
}

impl Row {
    fn new(rng: &mut Rng, what: u64) -> Self {
        let mut words = [0; ROW];
        words.fill_with(|| rng.bits());
        words[0] = what;
        Row {
            words,
            places: vec![],
        }
    }

    fn part(&mut self, word: usize, [place, count]: [u64; 2]) {
        self.words[word] = place;
        self.words[word + 1] = count;
        self.places.push((word, true));
    }

    fn real(&mut self, word: usize, [place, _]: [u64; 2]) {
        self.words[word] = place;
        self.places.push((word, false));
    }

    /// What is read at one of the places lies outside its pool.
    fn move_out(&mut self, rng: &mut Rng) {
        let (word, counted) = rng.pick(&self.places);
        let word = if counted { word + rng.below(2) } else { word };
        self.words[word] = u64::MAX - rng.below(3) as u64;
    }
}

/// Rows and the two pools that their lists stand in.
#[derive(Default)]
struct Calls {
    rows: Vec<u64>,
    lists: Vec<u64>,
    reals: Vec<f64>,
}

impl Calls {
    fn list(&mut self, list: &[u64]) -> [u64; 2] {
        let at = self.lists.len() as u64;
        self.lists.extend(list);
        [at, list.len() as u64]
    }

    fn reals(&mut self, reals: &[f64]) -> [u64; 2] {
        let at = self.reals.len() as u64;
        self.reals.extend(reals);
        [at, reals.len() as u64]
    }

    fn row(&mut self, rng: &mut Rng, args: &Args) -> Row {
        match args {
            Args::Line {
                lanes,
                placement,
                measure,
                given,
                rule,
            } => {
                let mut row = Row::new(rng, 1);
                row.part(1, self.list(lanes));
                row.words[3] = *placement;
                row.words[4] = *rule;
                match placement {
                    0 | 1 => row.real(5, self.reals(&[*measure])),
                    2 => row.part(6, self.reals(given)),
                    _ => {}
                }
                row
            }
            Args::Light(l) => {
                let mut row = Row::new(rng, 2);
                row.part(1, self.list(&l.lanes));
                row.words[3..20].copy_from_slice(&l.numbers);
                if l.measured() {
                    row.real(20, self.reals(&[l.measure]));
                }
                if l.numbers[4] != 0 {
                    row.real(21, self.reals(&[l.height]));
                }
                for (word, read, reals) in [
                    (22, l.pointed(), &l.points),
                    (24, l.numbers[3] != 0, &l.housing),
                    (26, l.numbers[6] != 0, &l.lamps),
                ] {
                    if read {
                        row.part(word, self.reals(reals));
                    }
                }
                row
            }
            Args::Links(l) => {
                let mut row = Row::new(rng, 3);
                row.part(1, self.list(&l.lanes));
                row.words[3] = l.rule;
                row.part(4, self.list(&l.crosswalks));
                row.part(6, self.list(&l.lines));
                row
            }
        }
    }

    /// A row that asks for nothing, for what is no case, or for a part outside its pool.
    fn no_call(&mut self, rng: &mut Rng, mut args: Args) {
        let row = match rng.below(3) {
            0 => {
                let what = rng.pick(&[0, 4, u64::MAX]);
                Row::new(rng, what)
            }
            1 if args.spoil(rng) => self.row(rng, &args),
            _ => {
                let mut row = self.row(rng, &args);
                row.move_out(rng);
                row
            }
        };
        self.rows.extend(row.words);
    }

    /// A row whose lanes are one more than the pool has from there on.
    fn past_the_end(&mut self, rng: &mut Rng) {
        let mut row = Row::new(rng, 3);
        let back = rng.below(self.lists.len().min(3) + 1) as u64;
        row.part(1, [self.lists.len() as u64 - back, back + 1]);
        row.part(4, [0, 0]);
        row.part(6, [0, 0]);
        self.rows.extend(row.words);
    }
}

/// A run by the Rust: the calls as rows, what each row is to be answered, and the last change set.
struct Wanted {
    calls: Calls,
    answers: Vec<u64>,
    last: Option<FileSet>,
}

fn rust_run(rng: &mut Rng, run: &mut Run, ends: &mut EndCounts) -> Wanted {
    let caller = Caller::new(run);
    let mut calls = Calls::default();
    let mut answers = vec![];
    let mut last = None;
    for _ in 0..rng.between(0, 40) {
        let (call, args) = draw(&caller, rng, run);
        if rng.percent(8) {
            calls.no_call(rng, args);
            answers.extend(only(NO_CALL));
            continue;
        }
        let row = calls.row(rng, &args);
        calls.rows.extend(row.words);
        // no line for a group with a line is to be answered as if it were named
        let call = run.named(&call).unwrap_or(call);
        let verdict = run.call(&call);
        answers.extend(wanted(&call, &verdict));
        ends.note(&verdict, run);
        if let Verdict::Answer(Outcome::Done { set, .. }) = verdict {
            last = Some(set);
        }
    }
    if rng.percent(20) {
        calls.past_the_end(rng);
        answers.extend(only(NO_CALL));
    }
    // an incomplete row is passed over
    let rest = if rng.percent(20) { rng.below(ROW) } else { 0 };
    calls.rows.extend(noise(rng, rest));
    Wanted {
        calls,
        answers,
        last,
    }
}

/// Whether the memory is where the Rust's run ends, and the answers are those that it wants.
fn left(want: &Wanted, run: &Run, lent: &Lent, set: &[u64], answers: &[u64], old: &[u64]) -> bool {
    let n = want.answers.len();
    let fold = lent.fold_set();
    let tally = [fold.created.len(), fold.modified.len(), fold.deleted.len()];
    let last = want.last.clone().unwrap_or_else(|| set_of(set));
    answers[..n] == want.answers
        && answers[n..] == old[n..]
        && write_map(&lent.tables.map()) == run.map_bytes()
        && write_set(&fold) == run.fold_bytes()
        && lent.tally.map(|n| n as usize) == tally
        && write_set(&set_of(&lent.set)) == write_set(&last)
}

/// Room for the answers: in some runs too short, which is 14 where nothing else is wrong.
fn room(rng: &mut Rng, want: &Wanted, percent: usize) -> (Vec<u64>, bool) {
    let n = want.answers.len();
    let short = n > 0 && rng.percent(percent);
    let n = if short { n - 1 } else { n + rng.below(9) };
    (noise(rng, n), short)
}

/// How many runs were carried out, with how many rows, and the refusals.
#[derive(Default)]
struct Counts {
    done: usize,
    rows: usize,
    refused: [usize; 3],
    /// Refused for no rows at all.
    empty: usize,
}

impl Counts {
    fn note(&mut self, code: u64, want: &Wanted) {
        if code == 0 {
            self.done += 1;
            self.rows += want.answers.len() / ANSWER;
        } else {
            self.refused[code as usize - 12] += 1;
            self.empty += usize::from(want.answers.is_empty());
        }
    }

    fn text(&self) -> String {
        let [a, b, c] = self.refused;
        format!(
            "{} carried out with {} rows, refused 12: {a}, 13: {b}, 14: {c}, of them without rows {}",
            self.done, self.rows, self.empty
        )
    }
}

/// From a map file to the change set file of the running fold. What stands in the tables before must not matter.
fn from_file(rng: &mut Rng, file: &[u8], run: &Run, want: &Wanted, counts: &mut Counts) -> bool {
    let mut file = file.to_vec();
    let mut lent = Lent::open(&random_map(rng, Size::Small));
    lent.fold = noise(rng, lent.fold.len());
    lent.tally = [rng.bits(); 3];
    let form = run.fold_bytes();
    let (mut answers, short) = room(rng, want, 10);
    let room = rng.pick(&[form.len() - 1, form.len(), form.len() + 7, 5_000]);
    let mut buffer: Vec<u8> = (0..room).map(|_| rng.bits() as u8).collect();
    let mut written = [rng.bits(); 2];
    let (map_bad, set_bad) = (rng.percent(12), rng.percent(12));
    if map_bad {
        match rng.below(3) {
            0 => file.push(0),
            1 => lent.tables.words.push(0),
            _ => drop(lent.tables.coords.pop()),
        }
    }
    if set_bad {
        if rng.percent(50) {
            lent.set.push(0);
        } else {
            lent.fold.pop();
        }
    }
    let code = match (map_bad, set_bad, short) {
        (true, _, _) => 12,
        (_, true, _) => 13,
        (_, _, true) => 14,
        _ => 0,
    };
    counts.note(code, want);
    let old = (lent.clone(), answers.clone(), buffer.clone(), written);
    let got = run_opened(
        &file,
        &mut lent,
        [&want.calls.rows, &want.calls.lists],
        &want.calls.reals,
        &mut answers,
        &mut buffer,
        &mut written,
    );
    if code > 0 {
        let kept = lent.same(&old.0) && answers == old.1 && buffer == old.2;
        return got == code && kept && written == old.3;
    }
    let file_good = if room >= form.len() {
        let n = form.len();
        written == [0, n as u64] && buffer[..n] == form && buffer[n..] == old.2[n..]
    } else {
        written == [14, 0] && buffer == old.2
    };
    got == 0 && file_good && left(want, run, &lent, &old.0.set, &answers, &old.1)
}

/// On tables that are open: 12 and 13 as a single call tests them, then 14.
fn on_tables(rng: &mut Rng, open: &Run, run: &Run, want: &Wanted, counts: &mut Counts) -> bool {
    let mut lent = Lent::open(&open.file);
    let (mut answers, short) = room(rng, want, 15);
    let code = match damage(&mut lent, rng, 15) {
        0 if short => 14,
        bad => bad,
    };
    counts.note(code, want);
    let old = (lent.clone(), answers.clone());
    let lists = [&want.calls.rows[..], &want.calls.lists[..]];
    let got = lent.run_calls(lists, &want.calls.reals, &mut answers);
    if code > 0 {
        return got == code && lent.same(&old.0) && answers == old.1;
    }
    got == 0 && left(want, run, &lent, &old.0.set, &answers, &old.1)
}

fn main() {
    let mut args = std::env::args().skip(1);
    let runs: usize = args.next().map_or(2_000, |a| a.parse().unwrap());
    let seed: u64 = args.next().map_or(1, |a| a.parse().unwrap());
    let mut rng = Rng::new(seed);
    let (mut opened, mut called, mut differ) = (Counts::default(), Counts::default(), 0);
    let mut ends = EndCounts::default();
    for _ in 0..runs {
        let size = Size::mixed(&mut rng);
        let open = Run::open(random_map(&mut rng, size));
        let mut run = open.clone();
        let want = rust_run(&mut rng, &mut run, &mut ends);
        let file = open.map_bytes();
        let a = from_file(&mut rng, &file, &run, &want, &mut opened);
        let b = on_tables(&mut rng, &open, &run, &want, &mut called);
        if !(a && b) {
            differ += 1;
            if differ <= 3 {
                println!("difference: from the file {a}, on open tables {b}");
                println!("  map {}", to_hex(&file));
                println!("  rows {:?}", want.calls.rows);
            }
        }
    }
    println!("{runs} runs, {differ} differences");
    println!("ends named {}, with a tie {}", ends.named, ends.ties);
    println!("from a file: {}", opened.text());
    println!("on open tables: {}", called.text());
    std::process::exit((differ > 0).into());
}
