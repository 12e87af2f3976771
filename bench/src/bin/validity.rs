//! The proved test of a map's tables, timed on an empty, a tiny and a full map, beside the Rust's edits of the same maps.

use bench::files::full_map;
use bench::time;
use oracle::codec::{FileMap, Point, What};
use oracle::{convert, edits, sample};
use std::hint::black_box;

mod c {
    unsafe extern "C" {
        pub fn lane_map_is_map(
            words: *const u64,
            words_len: usize,
            coords: *const f64,
            coords_len: usize,
        ) -> bool;
    }
}

/// The two slices of docs/TABLES.md.
struct Tables {
    words: Vec<u64>,
    coords: Vec<f64>,
}

const BASES: [usize; 6] = [7, 519, 775, 903, 1735, 1895];
const WIDTHS: [usize; 6] = [8, 2, 2, 13, 5, 92];
const COORD_BASES: [usize; 6] = [0, 12288, 36864, 49152, 62272, 80704];
const COORD_WIDTHS: [usize; 6] = [192, 192, 192, 205, 576, 192];

impl Tables {
    fn is_map(&self) -> bool {
        unsafe {
            c::lane_map_is_map(
                self.words.as_ptr(),
                self.words.len(),
                self.coords.as_ptr(),
                self.coords.len(),
            )
        }
    }

    /// A row of kind k more; its words, and polylines with their places in its row of coordinates.
    fn push(&mut self, k: usize, row: &[u64], lines: &[(usize, &[Point])]) {
        let i = self.words[1 + k] as usize;
        let at = BASES[k] + i * WIDTHS[k];
        self.words[at..at + row.len()].copy_from_slice(row);
        for (place, points) in lines {
            let at = COORD_BASES[k] + i * COORD_WIDTHS[k] + place;
            for (j, p) in points.iter().enumerate() {
                self.coords[at + j * 3..at + j * 3 + 3].copy_from_slice(p);
            }
        }
        self.words[1 + k] += 1;
    }

    fn new(map: &FileMap) -> Self {
        let mut t = Tables {
            words: vec![0; 13671],
            coords: vec![0.0; 105280],
        };
        t.words[0] = map.next;
        for l in &map.lanes {
            let c = l.centerline.as_deref();
            let n = c.map_or(0, |c| c.len() as u64);
            let row = [
                l.number,
                l.kind as u64,
                l.left,
                l.left_reversed as u64,
                l.right,
                l.right_reversed as u64,
                c.is_some() as u64,
                n,
            ];
            t.push(0, &row, &[(0, c.unwrap_or(&[]))]);
        }
        for (k, lines) in [(1, &map.boundaries), (2, &map.stop_lines)] {
            for l in lines {
                t.push(k, &[l.number, l.points.len() as u64], &[(0, &l.points)]);
            }
        }
        for s in &map.signals {
            let mut row = vec![
                s.number,
                s.pedestrian as u64,
                s.housing.len() as u64,
                s.height.is_some() as u64,
                s.bulbs.len() as u64,
            ];
            let bulbs: Vec<Point> = s.bulbs.iter().map(|b| b.at).collect();
            row.extend(
                s.bulbs
                    .iter()
                    .flat_map(|b| [b.color as u64, b.arrow as u64]),
            );
            t.push(3, &row, &[(0, &s.housing), (193, &bulbs)]);
        }
        for w in &map.crosswalks {
            let o = w.outline.as_deref();
            let row = [
                w.number,
                w.left.len() as u64,
                w.right.len() as u64,
                o.is_some() as u64,
                o.map_or(0, |o| o.len() as u64),
            ];
            t.push(
                4,
                &row,
                &[(0, &w.left), (192, &w.right), (384, o.unwrap_or(&[]))],
            );
        }
        for r in &map.rules {
            let What::Light { signals, line } = &r.what else {
                unreachable!("the maps here have lights alone")
            };
            let mut row = [0; 92];
            row[0] = r.number;
            row[1] = 1;
            row[3] = line.is_some() as u64;
            row[4] = line.unwrap_or(0);
            for (o, list) in [(7, &r.lanes), (24, &r.crosswalks), (41, signals)] {
                row[o] = list.len() as u64;
                row[o + 1..o + 1 + list.len()].copy_from_slice(list);
            }
            t.push(5, &row, &[]);
        }
        t
    }
}

/// Nanoseconds of the Rust's edit, each on a map of its own.
fn edit(file: &FileMap, call: &edits::Call) -> f64 {
    let map = convert::to_map(file);
    assert!(edits::run(&mut map.clone(), call).is_ok());
    let mut best = f64::INFINITY;
    for _ in 0..20 {
        let mut maps: Vec<_> = (0..50).map(|_| map.clone()).collect();
        let start = std::time::Instant::now();
        for m in &mut maps {
            black_box(edits::run(m, call).is_ok());
        }
        best = best.min(start.elapsed().as_nanos() as f64 / 50.0);
    }
    best
}

fn main() {
    let tiny = sample::crossing(2.0);
    let mut fuller = full_map();
    // room for the Rust's edits
    fuller.stop_lines.pop();
    fuller.signals.pop();
    fuller.rules.truncate(120);
    let maps = [
        ("empty", FileMap::default()),
        ("tiny", tiny.clone()),
        ("full", full_map()),
    ];
    for (name, map) in &maps {
        assert!(map.point_count() <= 1024);
        let mut t = Tables::new(map);
        assert!(t.is_map());
        let ns = time(200, 200, || {
            for _ in 0..200 {
                black_box(black_box(&t).is_map());
            }
        });
        println!(
            "is_map, {name} map of {} records: {ns:.0} ns",
            map.record_count()
        );
        // the last coordinate of the last record in use, off the map
        if let Some(w) = map.crosswalks.last() {
            let at = 62272 + (map.crosswalks.len() - 1) * 576 + 384;
            t.coords[at + w.outline.as_ref().unwrap().len() * 3 - 1] = f64::NAN;
            assert!(!t.is_map());
        }
    }
    let end = edits::Placement::LaneEnd(1.0);
    for (name, map, lane) in [("tiny", &tiny, 3), ("full", &fuller, 129)] {
        let sign = edit(map, &sample::stop_sign(&[lane], end.clone()));
        let light = edit(map, &sample::plain_light(&[lane]));
        println!("the Rust on the {name} map: stop line {sign:.0} ns, light {light:.0} ns");
    }
}
