//! A map, a change set and a fold in the layout of docs/TABLES.md, to and from the oracle's plain records. Written from that
//! page alone, so that the page is compared too.

use oracle::codec::{
    Bulb, Crosswalk, FileMap, FileSet, Lane, Line, Point, Ref, Rule, Signal, Warning, What,
};

pub const WORDS: usize = 13_671;
pub const COORDS: usize = 105_280;
pub const SET_WORDS: usize = 3_556;

/// Words of a row, words from, coordinates of a row, coordinates from: lanes, boundaries, stop lines, signals, crosswalks, rules.
const ROWS: [[usize; 4]; 6] = [
    [8, 7, 192, 0],
    [2, 519, 192, 12_288],
    [2, 775, 192, 36_864],
    [13, 903, 205, 49_152],
    [5, 1_735, 576, 62_272],
    [92, 1_895, 192, 80_704],
];

/// A map's two slices.
#[derive(Clone, PartialEq)]
pub struct Tables {
    pub words: Vec<u64>,
    pub coords: Vec<f64>,
}

struct Row<'a> {
    words: &'a mut [u64],
    coords: &'a mut [f64],
}

impl Row<'_> {
    /// A polyline's count at a word and its points from a coordinate on.
    fn points(&mut self, word: usize, from: usize, points: &[Point]) {
        self.words[word] = points.len() as u64;
        for (i, p) in points.iter().enumerate() {
            self.coords[from + i * 3..from + i * 3 + 3].copy_from_slice(p);
        }
    }

    fn list(&mut self, word: usize, list: &[u64]) {
        self.words[word] = list.len() as u64;
        self.words[word + 1..word + 1 + list.len()].copy_from_slice(list);
    }

    fn option(&mut self, word: usize, value: Option<u64>) {
        self.words[word] = value.is_some().into();
        self.words[word + 1] = value.unwrap_or(0);
    }
}

impl Tables {
    fn row(&mut self, kind: usize, i: usize) -> Row<'_> {
        let [w, from, c, coords_from] = ROWS[kind];
        Row {
            words: &mut self.words[from + i * w..from + (i + 1) * w],
            coords: &mut self.coords[coords_from + i * c..coords_from + (i + 1) * c],
        }
    }

    pub fn of(map: &FileMap) -> Self {
        let mut t = Tables {
            words: vec![0; WORDS],
            coords: vec![0.0; COORDS],
        };
        t.words[0] = map.next;
        let counts = [
            map.lanes.len(),
            map.boundaries.len(),
            map.stop_lines.len(),
            map.signals.len(),
            map.crosswalks.len(),
            map.rules.len(),
        ];
        for (k, n) in counts.iter().enumerate() {
            t.words[1 + k] = *n as u64;
        }
        for (i, l) in map.lanes.iter().enumerate() {
            let mut r = t.row(0, i);
            r.words[..7].copy_from_slice(&[
                l.number,
                l.kind.into(),
                l.left,
                l.left_reversed.into(),
                l.right,
                l.right_reversed.into(),
                l.centerline.is_some().into(),
            ]);
            r.points(7, 0, l.centerline.as_deref().unwrap_or(&[]));
        }
        for (k, lines) in [(1, &map.boundaries), (2, &map.stop_lines)] {
            for (i, l) in lines.iter().enumerate() {
                let mut r = t.row(k, i);
                r.words[0] = l.number;
                r.points(1, 0, &l.points);
            }
        }
        for (i, s) in map.signals.iter().enumerate() {
            let mut r = t.row(3, i);
            r.words[0] = s.number;
            r.words[1] = s.pedestrian.into();
            r.points(2, 0, &s.housing);
            r.words[3] = s.height.is_some().into();
            r.coords[192] = s.height.unwrap_or(0.0);
            r.words[4] = s.bulbs.len() as u64;
            for (j, b) in s.bulbs.iter().enumerate() {
                r.words[5 + j * 2] = b.color.into();
                r.words[6 + j * 2] = b.arrow.into();
                r.coords[193 + j * 3..196 + j * 3].copy_from_slice(&b.at);
            }
        }
        for (i, c) in map.crosswalks.iter().enumerate() {
            let mut r = t.row(4, i);
            r.words[0] = c.number;
            r.points(1, 0, &c.left);
            r.points(2, 192, &c.right);
            r.words[3] = c.outline.is_some().into();
            r.points(4, 384, c.outline.as_deref().unwrap_or(&[]));
        }
        for (i, rule) in map.rules.iter().enumerate() {
            put_rule(&mut t.row(5, i), rule);
        }
        t
    }

    pub fn map(&self) -> FileMap {
        let count = |k: usize| self.words[1 + k] as usize;
        let w = |k: usize, i: usize, o: usize| self.words[ROWS[k][1] + i * ROWS[k][0] + o];
        let at = |k: usize, i: usize| &self.coords[ROWS[k][3] + i * ROWS[k][2]..][..ROWS[k][2]];
        let points = |k: usize, i: usize, o: usize, n: u64| -> Vec<Point> {
            (0..n as usize)
                .map(|j| {
                    let p = &at(k, i)[o + j * 3..];
                    [p[0], p[1], p[2]]
                })
                .collect()
        };
        let list = |i: usize, o: usize| -> Vec<u64> {
            (0..w(5, i, o) as usize).map(|j| w(5, i, o + 1 + j)).collect()
        };
        let option = |i: usize, o: usize| (w(5, i, o) != 0).then(|| w(5, i, o + 1));
        let line = |k: usize, i: usize| Line {
            number: w(k, i, 0),
            points: points(k, i, 0, w(k, i, 1)),
        };
        FileMap {
            next: self.words[0],
            lanes: (0..count(0))
                .map(|i| Lane {
                    number: w(0, i, 0),
                    kind: w(0, i, 1) as u8,
                    left: w(0, i, 2),
                    left_reversed: w(0, i, 3) != 0,
                    right: w(0, i, 4),
                    right_reversed: w(0, i, 5) != 0,
                    centerline: (w(0, i, 6) != 0).then(|| points(0, i, 0, w(0, i, 7))),
                })
                .collect(),
            boundaries: (0..count(1)).map(|i| line(1, i)).collect(),
            stop_lines: (0..count(2)).map(|i| line(2, i)).collect(),
            signals: (0..count(3))
                .map(|i| Signal {
                    number: w(3, i, 0),
                    pedestrian: w(3, i, 1) != 0,
                    housing: points(3, i, 0, w(3, i, 2)),
                    height: (w(3, i, 3) != 0).then(|| at(3, i)[192]),
                    bulbs: (0..w(3, i, 4) as usize)
                        .map(|j| Bulb {
                            at: points(3, i, 193 + j * 3, 1)[0],
                            color: w(3, i, 5 + j * 2) as u8,
                            arrow: w(3, i, 6 + j * 2) as u8,
                        })
                        .collect(),
                })
                .collect(),
            crosswalks: (0..count(4))
                .map(|i| Crosswalk {
                    number: w(4, i, 0),
                    left: points(4, i, 0, w(4, i, 1)),
                    right: points(4, i, 192, w(4, i, 2)),
                    outline: (w(4, i, 3) != 0).then(|| points(4, i, 384, w(4, i, 4))),
                })
                .collect(),
            rules: (0..count(5))
                .map(|i| Rule {
                    number: w(5, i, 0),
                    what: match w(5, i, 1) {
                        1 => What::Light {
                            signals: list(i, 41),
                            line: option(i, 3),
                        },
                        2 => What::Sign {
                            sign_type: w(5, i, 2),
                            sign: (w(5, i, 5) != 0).then(|| points(5, i, 0, w(5, i, 6))),
                            line: option(i, 3),
                        },
                        3 => What::Marking { line: w(5, i, 4) },
                        4 => What::RightOfWay {
                            priority: list(i, 41),
                            yielding: list(i, 58),
                            lines: list(i, 75),
                        },
                        5 => What::Crosswalk {
                            crosswalk: w(5, i, 2),
                            lines: list(i, 75),
                        },
                        _ => What::Other { kind: w(5, i, 2) },
                    },
                    lanes: list(i, 7),
                    crosswalks: list(i, 24),
                })
                .collect(),
        }
    }
}

fn put_rule(r: &mut Row<'_>, rule: &Rule) {
    r.words[0] = rule.number;
    r.list(7, &rule.lanes);
    r.list(24, &rule.crosswalks);
    match &rule.what {
        What::Light { signals, line } => {
            r.words[1] = 1;
            r.option(3, *line);
            r.list(41, signals);
        }
        What::Sign {
            sign_type,
            sign,
            line,
        } => {
            r.words[1] = 2;
            r.words[2] = *sign_type;
            r.option(3, *line);
            r.words[5] = sign.is_some().into();
            r.points(6, 0, sign.as_deref().unwrap_or(&[]));
        }
        What::Marking { line } => {
            r.words[1] = 3;
            r.words[4] = *line;
        }
        What::RightOfWay {
            priority,
            yielding,
            lines,
        } => {
            r.words[1] = 4;
            r.list(41, priority);
            r.list(58, yielding);
            r.list(75, lines);
        }
        What::Crosswalk { crosswalk, lines } => {
            r.words[1] = 5;
            r.words[2] = *crosswalk;
            r.list(75, lines);
        }
        What::Other { kind } => {
            r.words[1] = 6;
            r.words[2] = *kind;
        }
    }
}

/// The words of a change set or a fold.
pub fn set_words(set: &FileSet) -> Vec<u64> {
    let mut w = vec![0; SET_WORDS];
    for (l, list) in [&set.created, &set.modified, &set.deleted].iter().enumerate() {
        w[l] = list.len() as u64;
        for (i, r) in list.iter().enumerate() {
            w[4 + l * 1024 + i * 2] = r.kind.into();
            w[5 + l * 1024 + i * 2] = r.number;
        }
    }
    w[3] = set.warnings.len() as u64;
    for (i, x) in set.warnings.iter().enumerate() {
        let about = x.entity.unwrap_or(Ref { kind: 0, number: 0 });
        let at = 3076 + i * 3;
        w[at..at + 3].copy_from_slice(&[x.code.into(), about.kind.into(), about.number]);
    }
    w
}

pub fn set_of(w: &[u64]) -> FileSet {
    let list = |l: usize| -> Vec<Ref> {
        (0..w[l] as usize)
            .map(|i| Ref {
                kind: w[4 + l * 1024 + i * 2] as u8,
                number: w[5 + l * 1024 + i * 2],
            })
            .collect()
    };
    FileSet {
        created: list(0),
        modified: list(1),
        deleted: list(2),
        warnings: (0..w[3] as usize)
            .map(|i| {
                let at = 3076 + i * 3;
                Warning {
                    code: w[at] as u8,
                    entity: (w[at + 1] != 0).then(|| Ref {
                        kind: w[at + 1] as u8,
                        number: w[at + 2],
                    }),
                }
            })
            .collect(),
    }
}
