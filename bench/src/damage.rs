//! Damaged files: bytes changed by where a file's numbers, counts and coordinates stand, and records that break a ceiling or an order.

use oracle::codec::*;
use oracle::rng::Rng;

/// Where the fields of a good file begin.
#[derive(Default)]
pub struct Places {
    numbers: Vec<usize>,
    counts: Vec<usize>,
    coordinates: Vec<usize>,
}

/// The place after the number that begins here.
fn after(bytes: &[u8], mut at: usize) -> usize {
    while bytes[at] & 0x80 != 0 {
        at += 1;
    }
    at + 1
}

struct Walk<'a> {
    bytes: &'a [u8],
    at: usize,
    places: Places,
}

impl Walk<'_> {
    fn value(&mut self) -> u64 {
        let end = after(self.bytes, self.at);
        let groups = self.bytes[self.at..end].iter().rev();
        self.at = end;
        groups.fold(0, |v, b| v << 7 | u64::from(b & 0x7f))
    }

    fn number(&mut self) -> u64 {
        self.places.numbers.push(self.at);
        self.value()
    }

    fn list(&mut self, mut item: impl FnMut(&mut Self)) {
        self.places.counts.push(self.at);
        for _ in 0..self.value() {
            item(self);
        }
    }

    fn option(&mut self, item: impl Fn(&mut Self)) {
        if self.number() == 1 {
            item(self);
        }
    }

    fn coordinate(&mut self) {
        self.places.coordinates.push(self.at);
        self.at += 8;
    }

    fn point(&mut self) {
        (0..3).for_each(|_| self.coordinate());
    }

    fn polyline(&mut self) {
        self.list(Self::point);
    }

    fn numbers(&mut self) {
        self.list(|w| {
            w.number();
        });
    }

    fn line(&mut self) {
        self.number();
        self.polyline();
    }

    fn lane(&mut self) {
        (0..6).for_each(|_| {
            self.number();
        });
        self.option(Self::polyline);
    }

    fn signal(&mut self) {
        self.number();
        self.number();
        self.polyline();
        self.option(Self::coordinate);
        self.list(|w| {
            w.point();
            w.number();
            w.number();
        });
    }

    fn crosswalk(&mut self) {
        self.number();
        self.polyline();
        self.polyline();
        self.option(Self::polyline);
    }

    fn rule(&mut self) {
        let optional_number = |w: &mut Self| {
            w.option(|w| {
                w.number();
            });
        };
        self.number();
        match self.number() {
            1 => {
                self.numbers();
                optional_number(self);
            }
            2 => {
                self.number();
                self.option(Self::polyline);
                optional_number(self);
            }
            4 => (0..3).for_each(|_| self.numbers()),
            5 => {
                self.number();
                self.numbers();
            }
            _ => {
                self.number();
            }
        }
        self.numbers();
        self.numbers();
    }
}

/// The fields of a good map file.
pub fn map_places(bytes: &[u8]) -> Places {
    let mut w = Walk {
        bytes,
        at: 0,
        places: Places::default(),
    };
    w.number();
    w.list(Walk::lane);
    w.list(Walk::line);
    w.list(Walk::line);
    w.list(Walk::signal);
    w.list(Walk::crosswalk);
    w.list(Walk::rule);
    assert_eq!(w.at, bytes.len());
    w.places
}

/// The fields of a good change set file.
pub fn set_places(bytes: &[u8]) -> Places {
    let mut w = Walk {
        bytes,
        at: 0,
        places: Places::default(),
    };
    for _ in 0..3 {
        w.list(|w| {
            w.number();
            w.number();
        });
    }
    w.list(|w| {
        w.number();
        if w.number() != 0 {
            w.number();
        }
    });
    assert_eq!(w.at, bytes.len());
    w.places
}

pub const CLASSES: [&str; 12] = [
    "whole",
    "truncated",
    "byte changed",
    "bytes inserted",
    "bytes deleted",
    "bytes left over",
    "longer number",
    "other number",
    "other count",
    "other coordinate",
    "random bytes",
    "records",
];

fn random_bytes(rng: &mut Rng) -> Vec<u8> {
    // small bytes are read further
    let mask = rng.pick(&[0xff, 0x83, 0x0f, 0x03, 0x01]);
    (0..rng.between(0, 120))
        .map(|_| rng.bits() as u8 & mask)
        .collect()
}

fn put(out: &mut Vec<u8>, at: usize, number: u64) {
    let end = after(out, at);
    out.splice(at..end, write_number(number));
}

/// The number that begins here in more groups than it wants, or in more than a number has.
fn longer(rng: &mut Rng, out: &mut Vec<u8>, at: usize) {
    let end = after(out, at);
    match rng.below(4) {
        0 => {
            // past 2^64-1
            let mut spent = vec![0xff; 9];
            spent.push(rng.pick(&[0x02, 0x03, 0x7f, 0x81]));
            out.splice(at..end, spent);
        }
        1 => {
            out[end - 1] |= 0x80;
            out.insert(end, 0x80);
            out.insert(end + 1, 0);
        }
        _ => {
            out[end - 1] |= 0x80;
            out.insert(end, 0);
        }
    }
}

/// A file of a class made from a good one; "whole" and "records" are made from records.
pub fn spoil(rng: &mut Rng, class: &str, file: &[u8], places: &Places) -> Vec<u8> {
    let mut out = file.to_vec();
    let anywhere = rng.below(out.len());
    let near = rng.below(out.len().min(24));
    let at = rng.pick(&[anywhere, near]);
    match class {
        "truncated" => {
            let last = out.len() - 1 - rng.below(out.len().min(8));
            out.truncate(rng.pick(&[at, last]));
        }
        "byte changed" => {
            for _ in 0..rng.pick(&[1, 1, 1, 2, 3]) {
                let at = rng.pick(&[at, rng.clone().below(out.len())]);
                out[at] = match rng.below(3) {
                    0 => rng.bits() as u8,
                    1 => out[at].wrapping_add(rng.pick(&[1, 255])),
                    _ => out[at] ^ 1 << rng.below(8),
                };
            }
        }
        "bytes inserted" => {
            for _ in 0..rng.pick(&[1, 1, 2, 8]) {
                let byte = rng.bits() as u8 & rng.pick(&[0xff, 3, 0]);
                out.insert(at, byte);
            }
        }
        "bytes deleted" => {
            let n = rng.pick(&[1, 1, 2, 8]).min(out.len() - at);
            out.drain(at..at + n);
        }
        "bytes left over" => {
            for _ in 0..rng.between(1, 4) {
                let byte = rng.bits() as u8 & rng.pick(&[0xff, 0]);
                out.push(byte);
            }
        }
        "longer number" => {
            // every file has counts
            let count = rng.pick(&places.counts);
            let number = rng.pick_some(&places.numbers).unwrap_or(count);
            let at = rng.pick(&[count, number]);
            longer(rng, &mut out, at);
        }
        "other number" => {
            if let Some(at) = rng.pick_some(&places.numbers) {
                let any = rng.bits() >> rng.below(64);
                let n = rng.pick(&[0, 1, 2, 3, 4, 5, 7, 8, 9, 127, 128, u64::MAX, any, any]);
                put(&mut out, at, n);
            }
        }
        "other count" => {
            let at = rng.pick(&places.counts);
            let n = rng.pick(&[
                0,
                1,
                2,
                4,
                5,
                16,
                17,
                32,
                33,
                64,
                65,
                128,
                129,
                160,
                161,
                512,
                513,
                1 << 32,
                u64::MAX,
            ]);
            put(&mut out, at, n);
        }
        "other coordinate" => {
            if let Some(at) = rng.pick_some(&places.coordinates) {
                let sign = rng.bits() & 1 << 63;
                let nan = 0x7ff0_0000_0000_0000 | rng.bits() >> 12;
                let m = MAX_COORDINATE;
                let bits = sign
                    | rng.pick(&[
                        nan,
                        f64::NAN.to_bits(),
                        f64::INFINITY.to_bits(),
                        f64::MAX.to_bits(),
                        m.to_bits(),
                        m.to_bits(),
                        m.next_up().to_bits(),
                        m.next_down().to_bits(),
                        0,
                        1,
                        rng.clone().bits() >> 1,
                    ]);
                out[at..at + 8].copy_from_slice(&bits.to_le_bytes());
            }
        }
        "random bytes" => out = random_bytes(rng),
        _ => unreachable!("a class of bytes"),
    }
    out
}

// ---------------------------------------------------------------- records

/// At the ceiling, or one past it.
fn brim(rng: &mut Rng, ceiling: usize) -> usize {
    ceiling + rng.below(2)
}

fn filled(lines: &mut Vec<Line>, next: &mut u64, n: usize) {
    while lines.len() < n {
        lines.push(Line {
            number: *next,
            points: vec![],
        });
        *next = next.saturating_add(1);
    }
}

/// Two neighbours that change places, or share a number.
fn disorder<T>(rng: &mut Rng, list: &mut [T], number: fn(&mut T) -> &mut u64) {
    if list.len() > 1 {
        let i = rng.below(list.len() - 1);
        if rng.percent(50) {
            list.swap(i, i + 1);
        } else {
            *number(&mut list[i + 1]) = *number(&mut list[i]);
        }
    }
}

/// As many points as are wanted, given to lines of at most 64.
fn fill_points(map: &mut FileMap, wanted: usize) {
    let mut missing = wanted.saturating_sub(map.point_count());
    for l in map.boundaries.iter_mut().chain(&mut map.stop_lines) {
        while missing > 0 && l.points.len() < MAX_POINTS {
            l.points.push([1.0, -2.0, 3.0]);
            missing -= 1;
        }
    }
}

/// Records that are changed where the ceilings, the orders and the cases stand.
pub fn spoil_map(rng: &mut Rng, map: &FileMap) -> FileMap {
    let mut m = map.clone();
    match rng.below(14) {
        0 => disorder(rng, &mut m.lanes, |x| &mut x.number),
        1 => disorder(rng, &mut m.boundaries, |x| &mut x.number),
        2 => disorder(rng, &mut m.signals, |x| &mut x.number),
        3 => disorder(rng, &mut m.rules, |x| &mut x.number),
        4 => {
            let last = [
                m.lanes.last().map(|x| x.number),
                m.rules.last().map(|x| x.number),
            ];
            let next = last
                .iter()
                .flatten()
                .max()
                .map_or(0, |n| n.saturating_add(rng.below(2) as u64));
            m.next = next;
        }
        5 => {
            let n = brim(rng, MAX_BOUNDARIES);
            filled(&mut m.boundaries, &mut m.next, n);
        }
        6 => {
            let n = brim(rng, MAX_STOP_LINES);
            filled(&mut m.stop_lines, &mut m.next, n);
        }
        7 => {
            let n = brim(rng, MAX_RULES);
            while m.rules.len() < n {
                m.rules.push(Rule {
                    number: m.next,
                    what: What::Other { kind: 1 },
                    lanes: vec![7; rng.below(3)],
                    crosswalks: vec![],
                });
                m.next = m.next.saturating_add(1);
            }
        }
        8 => {
            let n = brim(rng, MAX_CROSSWALKS);
            while m.crosswalks.len() < n {
                m.crosswalks.push(Crosswalk {
                    number: m.next,
                    left: vec![],
                    right: vec![],
                    outline: Some(vec![]),
                });
                m.next = m.next.saturating_add(1);
            }
        }
        9 => {
            let n = brim(rng, MAX_ALL_POINTS);
            fill_points(&mut m, n);
        }
        10 => {
            let n = brim(rng, MAX_POINTS);
            let points = vec![[0.5, -0.0, 1e-3]; n];
            match rng.below(3) {
                0 => m
                    .lanes
                    .iter_mut()
                    .take(1)
                    .for_each(|l| l.centerline = Some(points.clone())),
                1 => m
                    .crosswalks
                    .iter_mut()
                    .take(1)
                    .for_each(|c| c.outline = Some(points.clone())),
                _ => m
                    .signals
                    .iter_mut()
                    .take(1)
                    .for_each(|s| s.housing = points.clone()),
            }
        }
        11 => {
            let n = brim(rng, MAX_BULBS);
            let bulb = Bulb {
                at: [1.0, 2.0, 3.0],
                color: rng.pick(&[0, 3, 3, 4]),
                arrow: rng.pick(&[0, 8, 8, 9]),
            };
            let height = rng.pick(&[
                None,
                Some(-1e300),
                Some(0.0),
                Some(f64::NAN),
                Some(f64::INFINITY),
            ]);
            if let Some(s) = m.signals.first_mut() {
                s.bulbs = vec![bulb; n];
                s.height = height;
            }
        }
        12 => {
            let n = brim(rng, MAX_RULE_LIST);
            let list = vec![rng.bits(); n];
            if let Some(r) = m.rules.last_mut() {
                match rng.below(3) {
                    0 => r.lanes = list,
                    1 => r.crosswalks = list,
                    _ => {
                        r.what = What::RightOfWay {
                            priority: vec![],
                            yielding: list,
                            lines: vec![1],
                        }
                    }
                }
            }
        }
        _ => {
            let text = rng.below(3) as u64;
            if let Some(r) = m.rules.first_mut() {
                r.what = match rng.below(2) {
                    0 => What::Other { kind: text },
                    _ => What::Sign {
                        sign_type: text,
                        sign: Some(vec![]),
                        line: Some(u64::MAX),
                    },
                };
            }
            if let Some(l) = m.lanes.first_mut() {
                l.kind = rng.pick(&[0, 7, 7, 8]);
            }
        }
    }
    m
}

/// Entries and warnings that are changed where the ceilings, the order and the cases stand.
pub fn spoil_set(rng: &mut Rng, set: &FileSet) -> FileSet {
    let mut s = set.clone();
    let which = rng.below(3);
    let list = match which {
        0 => &mut s.created,
        1 => &mut s.modified,
        _ => &mut s.deleted,
    };
    match rng.below(7) {
        0 => disorder(rng, list, |r| &mut r.number),
        1 => {
            // an entry in two lists
            if let Some(r) = rng.pick_some(list) {
                let other = match which {
                    0 => &mut s.deleted,
                    1 => &mut s.created,
                    _ => &mut s.modified,
                };
                other.push(r);
                other.sort();
                other.dedup();
            }
        }
        2 => {
            let n = brim(rng, MAX_CHANGES);
            *list = (0..n as u64)
                .map(|number| Ref { kind: 3, number })
                .collect();
        }
        3 => {
            let warning = Warning {
                code: rng.between(1, 4) as u8,
                entity: rng.pick(&[
                    None,
                    Some(Ref {
                        kind: 4,
                        number: 1 << 60,
                    }),
                ]),
            };
            s.warnings = vec![warning; brim(rng, MAX_WARNINGS)];
        }
        4 => {
            if let Some(r) = list.last_mut() {
                r.kind = rng.pick(&[8, 8, 9, 255]);
            }
        }
        5 => {
            if let Some(r) = list.first_mut() {
                r.kind = rng.pick(&[1, 1, 0]);
            }
        }
        _ => {
            let warning = Warning {
                code: rng.pick(&[0, 1, 4, 5, 200]),
                entity: Some(Ref {
                    kind: rng.pick(&[0, 1, 8, 9]),
                    number: rng.bits(),
                }),
            };
            s.warnings.truncate(MAX_WARNINGS - 1);
            s.warnings.push(warning);
        }
    }
    s
}
