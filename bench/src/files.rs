//! Map files and change set files as other languages read and write them (include/lane_map.h), and the fullest of each.

use crate::edits::Lent;
use crate::tables::Tables;
use oracle::codec::{
    Bulb, Crosswalk, FileMap, FileSet, Lane, Line, Point, Ref, Rule, Signal, Warning, What,
};

mod c {
    unsafe extern "C" {
        pub fn lane_map_read(
            file: *const u8,
            file_len: usize,
            words: *mut u64,
            words_len: usize,
            coords: *mut f64,
            coords_len: usize,
        ) -> u64;
        pub fn lane_map_open(
            file: *const u8,
            file_len: usize,
            words: *mut u64,
            words_len: usize,
            coords: *mut f64,
            coords_len: usize,
            fold: *mut u64,
            fold_len: usize,
            tally: *mut [u64; 3],
        ) -> u64;
        pub fn lane_map_read_changes(
            file: *const u8,
            file_len: usize,
            set: *mut u64,
            set_len: usize,
        ) -> u64;
        pub fn lane_map_write(
            words: *const u64,
            words_len: usize,
            coords: *const f64,
            coords_len: usize,
            buffer: *mut u8,
            buffer_len: usize,
            size: *mut [u64; 1],
        ) -> u64;
        pub fn lane_map_write_changes(
            set: *const u64,
            set_len: usize,
            buffer: *mut u8,
            buffer_len: usize,
            size: *mut [u64; 1],
        ) -> u64;
        pub fn lane_map_run_opened(
            file: *const u8,
            file_len: usize,
            words: *mut u64,
            words_len: usize,
            coords: *mut f64,
            coords_len: usize,
            fold: *mut u64,
            fold_len: usize,
            tally: *mut [u64; 3],
            set: *mut u64,
            set_len: usize,
            calls: *const u64,
            calls_len: usize,
            lists: *const u64,
            lists_len: usize,
            reals: *const f64,
            reals_len: usize,
            answers: *mut u64,
            answers_len: usize,
            buffer: *mut u8,
            buffer_len: usize,
            written: *mut [u64; 2],
        ) -> u64;
    }
}

pub fn read(file: &[u8], t: &mut Tables) -> u64 {
    let (w, x) = (&mut t.words, &mut t.coords);
    unsafe {
        c::lane_map_read(
            file.as_ptr(),
            file.len(),
            w.as_mut_ptr(),
            w.len(),
            x.as_mut_ptr(),
            x.len(),
        )
    }
}

pub fn open(file: &[u8], t: &mut Tables, fold: &mut [u64], tally: &mut [u64; 3]) -> u64 {
    let (w, x) = (&mut t.words, &mut t.coords);
    unsafe {
        c::lane_map_open(
            file.as_ptr(),
            file.len(),
            w.as_mut_ptr(),
            w.len(),
            x.as_mut_ptr(),
            x.len(),
            fold.as_mut_ptr(),
            fold.len(),
            tally,
        )
    }
}

pub fn read_changes(file: &[u8], set: &mut [u64]) -> u64 {
    unsafe { c::lane_map_read_changes(file.as_ptr(), file.len(), set.as_mut_ptr(), set.len()) }
}

pub fn write(t: &Tables, buffer: &mut [u8], size: &mut [u64; 1]) -> u64 {
    unsafe {
        c::lane_map_write(
            t.words.as_ptr(),
            t.words.len(),
            t.coords.as_ptr(),
            t.coords.len(),
            buffer.as_mut_ptr(),
            buffer.len(),
            size,
        )
    }
}

pub fn write_changes(set: &[u64], buffer: &mut [u8], size: &mut [u64; 1]) -> u64 {
    unsafe {
        c::lane_map_write_changes(
            set.as_ptr(),
            set.len(),
            buffer.as_mut_ptr(),
            buffer.len(),
            size,
        )
    }
}

/// A run from a map file to its change set file; the rows and their lists of numbers, then those of doubles.
pub fn run_opened(
    file: &[u8],
    lent: &mut Lent,
    [calls, lists]: [&[u64]; 2],
    reals: &[f64],
    answers: &mut [u64],
    buffer: &mut [u8],
    written: &mut [u64; 2],
) -> u64 {
    let (w, x) = (&mut lent.tables.words, &mut lent.tables.coords);
    unsafe {
        c::lane_map_run_opened(
            file.as_ptr(),
            file.len(),
            w.as_mut_ptr(),
            w.len(),
            x.as_mut_ptr(),
            x.len(),
            lent.fold.as_mut_ptr(),
            lent.fold.len(),
            &mut lent.tally,
            lent.set.as_mut_ptr(),
            lent.set.len(),
            calls.as_ptr(),
            calls.len(),
            lists.as_ptr(),
            lists.len(),
            reals.as_ptr(),
            reals.len(),
            answers.as_mut_ptr(),
            answers.len(),
            buffer.as_mut_ptr(),
            buffer.len(),
            written,
        )
    }
}

/// Every table at its ceiling, 1,024 points in all; the boundaries of lane i stand apart from those of the others.
pub fn full_map() -> FileMap {
    let line =
        |y: f64, n: usize| -> Vec<Point> { (0..n).map(|j| [j as f64 * 10.0, y, 0.0]).collect() };
    let y = |i: u64| i as f64 * 4.0;
    FileMap {
        next: 481,
        boundaries: (0..128)
            .map(|i| Line {
                number: i + 1,
                points: line(y(i), 2),
            })
            .collect(),
        lanes: (0..64)
            .map(|i| Lane {
                number: 129 + i,
                kind: 0,
                left: i * 2 + 2,
                left_reversed: false,
                right: i * 2 + 1,
                right_reversed: false,
                centerline: Some(line(y(i * 2) + 2.0, 2)),
            })
            .collect(),
        stop_lines: (0..64)
            .map(|i| Line {
                number: 193 + i,
                points: line(y(i) + 1.0, 4),
            })
            .collect(),
        signals: (0..64)
            .map(|i| Signal {
                number: 257 + i,
                pedestrian: false,
                housing: line(y(i) + 3.0, 2),
                height: None,
                bulbs: (0..4)
                    .map(|j| Bulb {
                        at: [1.0, 2.0, 3.0 + j as f64],
                        color: j,
                        arrow: j,
                    })
                    .collect(),
            })
            .collect(),
        crosswalks: (0..32)
            .map(|i| Crosswalk {
                number: 321 + i,
                left: line(y(i), 2),
                right: line(y(i) + 3.0, 2),
                outline: Some(line(y(i) + 1.0, 4)),
            })
            .collect(),
        rules: (0..128)
            .map(|i| Rule {
                number: 353 + i,
                what: What::Light {
                    signals: (257..273).collect(),
                    line: Some(193 + i % 64),
                },
                lanes: (129..145).collect(),
                crosswalks: (321..337).collect(),
            })
            .collect(),
    }
}

/// 512 entries a list and 160 warnings.
pub fn full_set() -> FileSet {
    let list = |from: u64| -> Vec<Ref> {
        let entry = |i: u64| Ref {
            kind: 1 + (i / 64) as u8,
            number: from + i % 64 * 3,
        };
        (0..512).map(entry).collect()
    };
    FileSet {
        created: list(300),
        modified: list(301),
        deleted: list(302),
        warnings: (0..160)
            .map(|i| Warning {
                code: 1 + (i % 4) as u8,
                entity: Some(Ref {
                    kind: 1 + (i % 8) as u8,
                    number: i * 7,
                }),
            })
            .collect(),
    }
}
