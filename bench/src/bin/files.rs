//! files [FILES] [SEED]: random and damaged map files and change set files, read by the proved code and by the oracle's codec,
//! which is written from document 01 alone. Where a file is read: what the tables stand for, and its written form in a buffer of
//! random size. Where it is refused, and where the buffer is too short: every byte that was lent. Then damage at every place of a few
//! files: the programs of the gate try every class too, at fewer places.

use bench::damage::{CLASSES, Places, map_places, set_places, spoil, spoil_map, spoil_set};
use bench::files;
use bench::tables::{COORDS, SET_WORDS, Tables, WORDS, set_of};
use oracle::codec::{FileMap, FileSet, read_map, read_set, to_hex, write_map, write_set};
use oracle::maps::{Size, random_map};
use oracle::rng::Rng;
use oracle::sample::random_set;
use std::collections::BTreeMap;

const EVERY_CUT: &str = "cut at each place";
const EVERY_VALUE: &str = "each byte, value";

/// How many files of a class were read and refused.
type Hits = BTreeMap<(usize, &'static str), [usize; 2]>;

#[derive(Default)]
struct Count {
    hits: Hits,
    /// Buffers that took the file, and those that were too short.
    buffers: [usize; 2],
    differ: usize,
    smallest: Option<(String, Vec<u8>)>,
}

impl Count {
    fn file(&mut self, what: usize, class: &'static str, read: bool) {
        self.hits.entry((what, class)).or_default()[usize::from(!read)] += 1;
    }

    fn expect(&mut self, good: bool, what: &str, file: &[u8]) {
        if !good {
            self.differ += 1;
            if self
                .smallest
                .as_ref()
                .is_none_or(|(_, f)| file.len() < f.len())
            {
                self.smallest = Some((what.to_string(), file.to_vec()));
            }
        }
    }
}

fn same_bits(a: &Tables, b: &Tables) -> bool {
    a.words == b.words
        && a.coords.len() == b.coords.len()
        && a.coords
            .iter()
            .zip(&b.coords)
            .all(|(x, y)| x.to_bits() == y.to_bits())
}

/// Words and coordinates of any pattern.
fn smear(rng: &mut Rng, t: &mut Tables) {
    t.words
        .iter_mut()
        .for_each(|w| *w = rng.bits() >> (rng.bits() & 63));
    t.coords
        .iter_mut()
        .for_each(|x| *x = f64::from_bits(rng.bits()));
}

/// A buffer about as long as the file, too short as often as not.
fn buffer(rng: &mut Rng, n: usize) -> Vec<u8> {
    let shorter = rng.below(n);
    let longer = n + rng.below(100);
    let len = rng.pick(&[
        0,
        1,
        n - 1,
        n - 1,
        shorter,
        shorter,
        n,
        n,
        n + 1,
        longer,
        longer,
        2 * n,
    ]);
    (0..len).map(|_| rng.bits() as u8).collect()
}

/// A file written: 14 exactly where the buffer is too short, and then nothing; else the file, and the bytes after it stay.
fn written(
    rng: &mut Rng,
    count: &mut Count,
    file: &[u8],
    write: impl Fn(&mut [u8], &mut [u64; 1]) -> u64,
) {
    let mut out = buffer(rng, file.len());
    let before = out.clone();
    let mark = rng.bits();
    let mut size = [mark];
    let code = write(&mut out, &mut size);
    let n = file.len();
    let good = if before.len() < n {
        code == 14 && out == before && size == [mark]
    } else {
        code == 0 && size == [n as u64] && out[..n] == *file && out[n..] == before[n..]
    };
    count.buffers[usize::from(before.len() < n)] += 1;
    count.expect(good, "written", file);
}

/// What is lent for maps, and what it was before the call.
struct Lent {
    tables: Tables,
    fold: Vec<u64>,
    tally: [u64; 3],
}

fn map_file(
    rng: &mut Rng,
    count: &mut Count,
    lent: &mut Lent,
    before: &mut Lent,
    class: &'static str,
    file: &[u8],
) {
    let want = read_map(file);
    count.file(0, class, want.is_ok());
    let opened = rng.percent(30);
    let code = if opened {
        files::open(file, &mut lent.tables, &mut lent.fold, &mut lent.tally)
    } else {
        files::read(file, &mut lent.tables)
    };
    match want {
        Err(_) => {
            let kept = same_bits(&lent.tables, &before.tables)
                && lent.fold == before.fold
                && lent.tally == before.tally;
            count.expect(code == 12 && kept, "refused map file", file);
        }
        Ok(map) => {
            count.expect(code == 0, "map file", file);
            if code != 0 {
                return;
            }
            let here = write_map(&lent.tables.map());
            count.expect(
                here == file && here == write_map(&map),
                "map of the tables",
                file,
            );
            if opened {
                let empty = set_of(&lent.fold) == FileSet::default() && lent.tally == [0; 3];
                count.expect(empty, "fold and tally of an opening", file);
            } else {
                count.expect(
                    lent.fold == before.fold && lent.tally == before.tally,
                    "a fold that was not lent",
                    file,
                );
            }
            before.tables.words.copy_from_slice(&lent.tables.words);
            before.tables.coords.copy_from_slice(&lent.tables.coords);
            before.fold.copy_from_slice(&lent.fold);
            before.tally = lent.tally;
            written(rng, count, file, |b, n| files::write(&lent.tables, b, n));
        }
    }
}

fn set_file(
    rng: &mut Rng,
    count: &mut Count,
    set: &mut Vec<u64>,
    class: &'static str,
    file: &[u8],
) {
    let want = read_set(file);
    count.file(1, class, want.is_ok());
    let before = set.clone();
    let code = files::read_changes(file, set);
    match want {
        Err(_) => count.expect(code == 13 && *set == before, "refused set file", file),
        Ok(x) => {
            count.expect(code == 0, "set file", file);
            if code == 0 {
                let here = write_set(&set_of(set));
                count.expect(
                    here == file && here == write_set(&x),
                    "set of the table",
                    file,
                );
                written(rng, count, file, |b, n| files::write_changes(set, b, n));
            }
        }
    }
}

/// Slices of other lengths, and tables that are no map's or no set's: 12 or 13, and nothing altered.
fn foreign(rng: &mut Rng, count: &mut Count, map: &[u8], set: &[u8]) -> usize {
    let tables = |rng: &mut Rng, words: usize, coords: usize| {
        let mut t = Tables {
            words: vec![0; words],
            coords: vec![0.0; coords],
        };
        smear(rng, &mut t);
        t
    };
    let mut tried = 0;
    for (words, coords, fold_len, code) in [
        (WORDS - 1, COORDS, SET_WORDS, 12),
        (WORDS, COORDS + 1, SET_WORDS, 12),
        (WORDS + 1, COORDS - 1, 0, 12),
        (0, 0, SET_WORDS, 12),
        (WORDS, COORDS, SET_WORDS - 1, 13),
        (WORDS, COORDS, SET_WORDS + 1, 13),
    ] {
        let mut t = tables(rng, words, coords);
        let mut fold: Vec<u64> = (0..fold_len).map(|_| rng.bits()).collect();
        let mut tally = [rng.bits(); 3];
        let (t0, fold0, tally0) = (t.clone(), fold.clone(), tally);
        let got = files::open(map, &mut t, &mut fold, &mut tally);
        let mut good = got == code && same_bits(&t, &t0) && fold == fold0 && tally == tally0;
        if code == 12 {
            good &= files::read(map, &mut t) == 12 && same_bits(&t, &t0);
        } else {
            good &= files::read_changes(set, &mut fold) == 13 && fold == fold0;
        }
        // no tables: nothing is written
        let mut out = [7; 9];
        let mut size = [8];
        good &= files::write(&t, &mut out, &mut size) == 12;
        good &= files::write_changes(&fold, &mut out, &mut size) == 13;
        good &= out == [7; 9] && size == [8];
        count.expect(good, "memory of another's", map);
        tried += 1;
    }
    tried
}

/// A good file to damage, with its records.
enum Base {
    Map(FileMap, Vec<u8>, Places),
    Set(FileSet, Vec<u8>, Places),
}

fn base(rng: &mut Rng) -> Base {
    if rng.percent(60) {
        let map = match rng.below(20) {
            0..12 => random_map(rng, Size::Small),
            12..17 => random_map(rng, Size::Medium),
            17..19 => random_map(rng, Size::Large),
            _ => files::full_map(),
        };
        let file = write_map(&map);
        let places = map_places(&file);
        Base::Map(map, file, places)
    } else {
        let most = rng.pick(&[0, 3, 10, 60, 600, 1_500]);
        let numbers = rng.pick(&[2, 40, 200, 1 << 40, u64::MAX]);
        let set = match rng.below(20) {
            0 => files::full_set(),
            _ => random_set(rng, most, numbers),
        };
        let file = write_set(&set);
        let places = set_places(&file);
        Base::Set(set, file, places)
    }
}

fn main() {
    let mut args = std::env::args().skip(1);
    let files: usize = args.next().map_or(40_000, |a| a.parse().unwrap());
    let seed: u64 = args.next().map_or(1, |a| a.parse().unwrap());
    let mut rng = Rng::new(seed);
    let mut count = Count::default();
    let lend = |rng: &mut Rng| {
        let mut tables = Tables {
            words: vec![0; WORDS],
            coords: vec![0.0; COORDS],
        };
        smear(rng, &mut tables);
        Lent {
            tables,
            fold: (0..SET_WORDS).map(|_| rng.bits()).collect(),
            tally: [rng.bits(); 3],
        }
    };
    let mut lent = lend(&mut rng);
    let mut before = Lent {
        tables: lent.tables.clone(),
        fold: lent.fold.clone(),
        tally: lent.tally,
    };
    let mut set: Vec<u64> = (0..SET_WORDS).map(|_| rng.bits()).collect();
    let mut tried = 0;
    let mut foreigners = 0;
    while tried < files {
        let base = base(&mut rng);
        for class in CLASSES {
            match &base {
                Base::Map(map, file, places) => {
                    let file = match class {
                        "whole" => file.clone(),
                        "records" => write_map(&spoil_map(&mut rng, map)),
                        _ => spoil(&mut rng, class, file, places),
                    };
                    map_file(&mut rng, &mut count, &mut lent, &mut before, class, &file);
                }
                Base::Set(..) if class == "other coordinate" => continue,
                Base::Set(records, file, places) => {
                    let file = match class {
                        "whole" => file.clone(),
                        "records" => write_set(&spoil_set(&mut rng, records)),
                        _ => spoil(&mut rng, class, file, places),
                    };
                    set_file(&mut rng, &mut count, &mut set, class, &file);
                }
            }
            tried += 1;
        }
        if rng.percent(3) {
            // what stood in the tables before must not matter
            lent = lend(&mut rng);
            before.tables = lent.tables.clone();
            before.fold.copy_from_slice(&lent.fold);
            before.tally = lent.tally;
            set.iter_mut().for_each(|w| *w = rng.bits());
            let map = write_map(&random_map(&mut rng, Size::Small));
            foreigners += foreign(&mut rng, &mut count, &map, &write_set(&FileSet::default()));
        }
    }
    tried += everywhere(&mut rng, &mut count, &mut lent, &mut before, &mut set);
    print(&count, tried, foreigners);
    std::process::exit((count.differ > 0).into());
}

/// Damage at every place, not at random ones: every truncation of the full map and the full set, and of small files every byte
/// changed to each other value.
fn everywhere(
    rng: &mut Rng,
    count: &mut Count,
    lent: &mut Lent,
    before: &mut Lent,
    set: &mut Vec<u64>,
) -> usize {
    let mut tried = 0;
    let full = write_map(&files::full_map());
    for n in 0..full.len() {
        map_file(rng, count, lent, before, EVERY_CUT, &full[..n]);
        tried += 1;
    }
    let full = write_set(&files::full_set());
    for n in 0..full.len() {
        set_file(rng, count, set, EVERY_CUT, &full[..n]);
        tried += 1;
    }
    let mut small = write_map(&random_map(rng, Size::Small));
    for (i, mask) in changes(small.len()) {
        small[i] ^= mask;
        map_file(rng, count, lent, before, EVERY_VALUE, &small);
        small[i] ^= mask;
        tried += 1;
    }
    let mut small = write_set(&random_set(rng, 10, 200));
    for (i, mask) in changes(small.len()) {
        small[i] ^= mask;
        set_file(rng, count, set, EVERY_VALUE, &small);
        small[i] ^= mask;
        tried += 1;
    }
    tried
}

fn changes(n: usize) -> impl Iterator<Item = (usize, u8)> {
    (0..n).flat_map(|i| (1..=255).map(move |mask| (i, mask)))
}

fn print(count: &Count, tried: usize, foreigners: usize) {
    println!(
        "{:<18} {:>8} {:>8} {:>8} {:>8}",
        "", "map read", "12", "set read", "13"
    );
    let mut sums = [0; 4];
    for class in CLASSES.into_iter().chain([EVERY_CUT, EVERY_VALUE]) {
        let of = |what| count.hits.get(&(what, class)).copied().unwrap_or_default();
        let row = [of(0), of(1)].concat();
        println!(
            "{class:<18} {:>8} {:>8} {:>8} {:>8}",
            row[0], row[1], row[2], row[3]
        );
        sums.iter_mut().zip(&row).for_each(|(s, n)| *s += n);
    }
    println!(
        "{:<18} {:>8} {:>8} {:>8} {:>8}",
        "in all", sums[0], sums[1], sums[2], sums[3]
    );
    println!(
        "written back: {} into buffers with room, {} refused with 14",
        count.buffers[0], count.buffers[1]
    );
    println!("{foreigners} times memory of other lengths, or that is no map's or set's");
    if let Some((what, file)) = &count.smallest {
        println!("smallest that differs, {what}: {}", to_hex(file));
    }
    println!("{tried} files, {} differences", count.differ);
}
