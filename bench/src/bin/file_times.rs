//! The fullest map file and the fullest change set file read and written, beside the oracle's codec on the same files in one run:
//! a plain Rust codec over vectors, written from document 01. Medians of single calls on warm memory.

use bench::files;
use bench::tables::{SET_WORDS, Tables, set_words};
use oracle::codec::{read_map, read_set, write_map, write_set};
use std::hint::black_box;
use std::time::Instant;

const ROUNDS: usize = 2_001;

/// Medians of both sides in nanoseconds, measured in turn.
fn beside<A, B>(mut rust: impl FnMut() -> A, mut here: impl FnMut() -> B) -> [f64; 2] {
    let mut times = [vec![], vec![]];
    for _ in 0..ROUNDS {
        let start = Instant::now();
        black_box(rust());
        times[0].push(start.elapsed().as_nanos() as f64);
        let start = Instant::now();
        black_box(here());
        times[1].push(start.elapsed().as_nanos() as f64);
    }
    times.map(|mut t| {
        t.sort_by(f64::total_cmp);
        t[t.len() / 2]
    })
}

fn print(what: &str, bytes: usize, [rust, here]: [f64; 2]) {
    let speed = |ns: f64| bytes as f64 / ns * 1e3;
    println!(
        "{what:<12} {bytes:>6} bytes   Rust {:>5.0} MB/s {:>7.1} µs   here {:>5.0} MB/s {:>7.1} µs   ratio {:.2}",
        speed(rust),
        rust / 1e3,
        speed(here),
        here / 1e3,
        here / rust
    );
}

fn main() {
    let map = files::full_map();
    assert_eq!(map.point_count(), 1_024);
    let file = write_map(&map);
    let mut tables = Tables::of(&map);
    let mut buffer = vec![0; file.len()];
    let mut size = [0];
    let reading = beside(
        || read_map(black_box(&file)).unwrap(),
        || assert_eq!(files::read(black_box(&file), &mut tables), 0),
    );
    print("map read", file.len(), reading);
    let writing = beside(
        || write_map(black_box(&map)),
        || assert_eq!(files::write(black_box(&tables), &mut buffer, &mut size), 0),
    );
    assert!(buffer == file && size == [file.len() as u64]);
    print("map written", file.len(), writing);

    let set = files::full_set();
    let file = write_set(&set);
    let mut table = vec![0; SET_WORDS];
    let mut buffer = vec![0; file.len()];
    let reading = beside(
        || read_set(black_box(&file)).unwrap(),
        || assert_eq!(files::read_changes(black_box(&file), &mut table), 0),
    );
    assert!(table == set_words(&set));
    print("set read", file.len(), reading);
    let writing = beside(
        || write_set(black_box(&set)),
        || {
            assert_eq!(
                files::write_changes(black_box(&table), &mut buffer, &mut size),
                0
            )
        },
    );
    assert!(buffer == file && size == [file.len() as u64]);
    print("set written", file.len(), writing);
}
