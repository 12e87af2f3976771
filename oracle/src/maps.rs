//! Random maps: roads of lanes that share boundaries, with the odd shapes
//! that 01 speaks of put among them.

use crate::codec::*;
use crate::rng::Rng;

#[derive(Debug, Clone, Copy, PartialEq, Eq)]
pub enum Size {
    Small,
    Medium,
    Large,
    /// Few lanes, laid on one another: sides of several lie equally far out.
    Shared,
}

impl Size {
    /// Mostly small.
    pub fn mixed(rng: &mut Rng) -> Self {
        match rng.below(10) {
            0..5 => Size::Small,
            5 => Size::Shared,
            6..9 => Size::Medium,
            _ => Size::Large,
        }
    }
}

/// Where a road lies and how it bends.
struct Road {
    base: Point,
    heading: [f64; 2],
    /// One over the radius at the start; 0 for a straight road.
    bend: f64,
    slope: f64,
    scale: f64,
}

impl Road {
    fn at(&self, along: f64, across: f64) -> Point {
        // A parabola and its normal: sines differ between libraries.
        let slant = self.bend * along;
        let (u, v) = (along - across * slant, across + slant * along / 2.0);
        let [c, s] = self.heading;
        [
            self.base[0] + self.scale * (c * u - s * v),
            self.base[1] + self.scale * (s * u + c * v),
            self.base[2] + self.scale * self.slope * along,
        ]
    }
}

struct Maker<'a> {
    rng: &'a mut Rng,
    map: FileMap,
    /// Points that may still be given away.
    room: usize,
    line_numbers: Vec<u64>,
    signal_numbers: Vec<u64>,
    crosswalk_numbers: Vec<u64>,
    boundary_numbers: Vec<u64>,
    lane_numbers: Vec<u64>,
    rule_numbers: Vec<u64>,
}

/// How many of each kind.
struct Counts {
    lanes: usize,
    spare_boundaries: usize,
    lines: usize,
    signals: usize,
    crosswalks: usize,
    rules: usize,
}

fn counts(rng: &mut Rng, size: Size) -> Counts {
    match size {
        Size::Small => Counts {
            lanes: rng.between(1, 4),
            spare_boundaries: rng.between(0, 3),
            lines: rng.between(0, 4),
            signals: rng.between(0, 5),
            crosswalks: rng.between(0, 3),
            rules: rng.between(0, 9),
        },
        Size::Shared => Counts {
            lanes: rng.between(2, 6),
            spare_boundaries: rng.between(0, 2),
            lines: rng.between(0, 2),
            signals: rng.between(0, 2),
            crosswalks: rng.between(0, 1),
            rules: rng.between(0, 3),
        },
        Size::Medium => Counts {
            lanes: rng.between(4, 20),
            spare_boundaries: rng.between(0, 8),
            lines: rng.between(2, 14),
            signals: rng.between(2, 16),
            crosswalks: rng.between(1, 8),
            rules: rng.between(6, 30),
        },
        Size::Large => {
            let mut near = |low, ceiling| {
                if rng.percent(15) {
                    ceiling
                } else {
                    rng.between(low, ceiling)
                }
            };
            Counts {
                lanes: near(48, MAX_LANES),
                spare_boundaries: near(8, 48),
                lines: near(30, MAX_STOP_LINES),
                signals: near(30, MAX_SIGNALS),
                crosswalks: near(20, MAX_CROSSWALKS),
                rules: near(90, MAX_RULES),
            }
        }
    }
}

/// A random map within the ceilings.
pub fn random_map(rng: &mut Rng, size: Size) -> FileMap {
    if size == Size::Small && rng.percent(2) {
        let next = rng.pick(&[0, 0, 1, 7, u64::MAX]);
        return FileMap {
            next,
            ..FileMap::default()
        };
    }
    let c = counts(rng, size);
    let lanes_a_road = rng.between(1, 4);
    let roads = c.lanes.div_ceil(lanes_a_road);
    let boundaries = (c.lanes + roads + c.spare_boundaries).min(MAX_BOUNDARIES);
    let mut m = Maker {
        rng,
        map: FileMap::default(),
        room: MAX_ALL_POINTS - 40,
        line_numbers: vec![],
        signal_numbers: vec![],
        crosswalk_numbers: vec![],
        boundary_numbers: vec![],
        lane_numbers: vec![],
        rule_numbers: vec![],
    };
    m.number_records([
        c.lanes,
        boundaries,
        c.lines,
        c.signals,
        c.crosswalks,
        c.rules,
    ]);
    m.roads(lanes_a_road, size);
    m.odd_lanes(size);
    if size == Size::Shared {
        m.shared_lanes();
    }
    m.stop_lines();
    m.signals();
    m.crosswalks();
    m.rules();
    if size == Size::Large && m.rng.percent(40) {
        m.fill();
    }
    if m.rng.percent(8) {
        m.negative_zeros();
    }
    let map = m.map;
    debug_assert!(read_map(&write_map(&map)).is_ok());
    map
}

impl Maker<'_> {
    /// Numbers in one series, or one series for each kind; with gaps.
    fn number_records(&mut self, counts: [usize; 6]) {
        let mut kinds: Vec<usize> = vec![];
        for (kind, n) in counts.iter().enumerate() {
            kinds.extend(vec![kind; *n]);
        }
        // Lanes before boundaries or the other way round, as it comes.
        if self.rng.percent(60) {
            self.rng.shuffle(&mut kinds);
        }
        let total = kinds.len() as u64;
        let start = match self.rng.below(20) {
            0..3 => 0,
            3 => 120,
            4 => 1 << 32,
            5 => u64::MAX - 5 * total - self.rng.bits() % 100 - 100,
            _ => 1,
        };
        let gaps = self.rng.percent(30);
        let apart = self.rng.percent(12);
        let mut lists: [Vec<u64>; 6] = Default::default();
        let mut number = start;
        let mut last = start;
        for kind in kinds {
            if apart {
                // The same numbers serve several kinds.
                number = lists[kind].last().map_or(start, |n| n + 1);
            }
            lists[kind].push(number);
            last = last.max(number);
            number += 1;
            if gaps && !apart {
                number += self.rng.bits() % 4;
            }
        }
        self.map.next = last
            + match self.rng.below(20) {
                0 => 1 + self.rng.bits() % 10,
                1 => (u64::MAX - last).min(1 << 40),
                2 if self.rng.percent(50) => u64::MAX - last - self.rng.bits() % 8,
                _ => 1,
            };
        let [a, b, c, d, e, f] = lists;
        self.lane_numbers = a;
        self.boundary_numbers = b;
        self.line_numbers = c;
        self.signal_numbers = d;
        self.crosswalk_numbers = e;
        self.rule_numbers = f;
    }

    fn road(&mut self) -> Road {
        let base = match self.rng.below(12) {
            0 => [67_108_700.0, -67_108_000.0, 20.0],
            1 => [0.0, 67_108_500.0, 67_108_862.0],
            2..5 => [
                self.rng.range(-5000.0, 5000.0),
                self.rng.range(-5000.0, 5000.0),
                self.rng.range(-20.0, 100.0),
            ],
            5..8 => [
                self.rng.between(0, 200) as f64,
                self.rng.between(0, 200) as f64,
                0.0,
            ],
            _ => [0.0; 3],
        };
        let heading = match self.rng.below(8) {
            0 | 1 => [1.0, 0.0],
            2 => [-1.0, 0.0],
            3 => [0.0, 1.0],
            4 => [0.0, -1.0],
            5 => [0.6, 0.8],
            _ => {
                let t = self.rng.range(-3.0, 3.0);
                let n = 1.0 + t * t;
                [(1.0 - t * t) / n, 2.0 * t / n]
            }
        };
        let bend = match self.rng.below(3) {
            0 => self.rng.range(-0.02, 0.02),
            _ => 0.0,
        };
        let slope = match self.rng.below(3) {
            0 => self.rng.range(-0.1, 0.1),
            _ => 0.0,
        };
        let scale = match self.rng.below(40) {
            0 => 1e-3,
            1 => 1e-9,
            2 => 1e-10,
            3 => 1e-6,
            _ => 1.0,
        };
        Road {
            base,
            heading,
            bend,
            slope,
            scale,
        }
    }

    /// At most `want` points, and no more than there is room for.
    fn take(&mut self, want: usize) -> usize {
        let n = want.min(self.room);
        self.room -= n;
        n
    }

    fn roads(&mut self, lanes_a_road: usize, size: Size) {
        let numbers = self.lane_numbers.clone();
        let mut boundaries = self.boundary_numbers.clone().into_iter();
        let most = match size {
            Size::Small => 12,
            Size::Medium | Size::Shared => 8,
            Size::Large => 6,
        };
        for lanes in numbers.chunks(lanes_a_road) {
            let mut road = self.road();
            let long = match self.rng.below(5) {
                0 => 10.0,
                1 => 100.0,
                _ => self.rng.range(5.0, 120.0),
            };
            let width = match self.rng.below(8) {
                0 | 1 => 4.0,
                2 => self
                    .rng
                    .pick(&[1e-3, 0.001_000_000_001, 0.000_999_999, 0.00102, 0.0011]),
                _ => self.rng.range(2.5, 4.0),
            };
            if width < 0.01 && self.rng.percent(60) {
                // Where 1e-3 is met to the last bit.
                road = Road {
                    base: [0.0; 3],
                    heading: [1.0, 0.0],
                    bend: 0.0,
                    slope: 0.0,
                    scale: 1.0,
                };
            }
            let points = self.rng.between(2, most);
            let even = self.rng.percent(50);
            let mut own: Vec<(u64, bool)> = vec![];
            for i in 0..=lanes.len() {
                let Some(number) = boundaries.next() else {
                    own.push((self.map.next, false));
                    continue;
                };
                let count = match self.rng.below(60) {
                    0 => 0,
                    1 => 1,
                    2 if size == Size::Small => 64,
                    _ if even => points,
                    _ => self.rng.between(2, most),
                };
                let count = self.take(count);
                let across = (i as f64 - lanes.len() as f64 / 2.0) * width;
                let mut line: Vec<Point> = (0..count)
                    .map(|k| {
                        let last = (count - 1).max(1) as f64;
                        road.at(long * k as f64 / last, -across)
                    })
                    .collect();
                if self.rng.percent(10) && count > 2 {
                    // A repeated point.
                    let k = self.rng.between(1, count - 1);
                    line[k] = line[k - 1];
                }
                let reversed = self.rng.percent(25);
                if reversed {
                    line.reverse();
                }
                self.map.boundaries.push(Line {
                    number,
                    points: held(line),
                });
                own.push((number, reversed));
            }
            for (i, number) in lanes.iter().enumerate() {
                let against = self.rng.percent(20);
                let ((left, l), (right, r)) = if against {
                    (own[i + 1], own[i])
                } else {
                    (own[i], own[i + 1])
                };
                self.map.lanes.push(Lane {
                    number: *number,
                    kind: self.rng.below(8) as u8,
                    left,
                    left_reversed: l != against,
                    right,
                    right_reversed: r != against,
                    centerline: None,
                });
                if self.rng.percent(15) {
                    let n = self.rng.between(2, most);
                    let count = self.take(n);
                    let middle = (i as f64 + 0.5 - lanes.len() as f64 / 2.0) * width;
                    let mut line: Vec<Point> = (0..count)
                        .map(|k| {
                            let last = (count - 1).max(1) as f64;
                            road.at(long * k as f64 / last, -middle)
                        })
                        .collect();
                    if against {
                        line.reverse();
                    }
                    let lane = self.map.lanes.last_mut().expect("just pushed");
                    lane.centerline = Some(held(line));
                }
            }
        }
        // Spare boundaries: no points, one, a stub, or a random line.
        for number in boundaries {
            let points = match self.rng.below(5) {
                0 | 1 => vec![],
                2 if self.take(1) == 1 => vec![self.near_point()],
                3 if self.take(2) == 2 => {
                    let p = self.near_point();
                    let step = self.rng.pick(&[0.0, 1e-9, -1e-9, 2e-9]);
                    let q = [step, 0.0, 0.0];
                    self.rng.pick(&[[p, p], [[0.0; 3], q], [q, p]]).to_vec()
                }
                _ => {
                    let n = self.rng.between(2, 5);
                    let n = self.take(n);
                    (0..n).map(|_| self.near_point()).collect()
                }
            };
            self.map.boundaries.push(Line { number, points });
        }
    }

    /// Turns some lanes into those that the cross-section cannot use.
    fn odd_lanes(&mut self, size: Size) {
        let share = match size {
            Size::Small => self.rng.pick(&[0, 20, 50, 80]),
            _ => self.rng.pick(&[5, 15, 30]),
        };
        let empty: Vec<u64> = self
            .map
            .boundaries
            .iter()
            .filter(|b| b.points.is_empty())
            .map(|b| b.number)
            .collect();
        let absent = self.map.next + 3 * u64::from(self.map.next < u64::MAX - 3);
        for i in 0..self.map.lanes.len() {
            if !self.rng.percent(share) {
                continue;
            }
            let side = self.rng.percent(50);
            let none = self.rng.pick_some(&empty);
            let mut lane = self.map.lanes[i].clone();
            let point_at = |lane: &mut Lane, number: u64| {
                if side {
                    lane.left = number;
                } else {
                    lane.right = number;
                }
            };
            match self.rng.below(19) {
                0 => point_at(&mut lane, absent),
                1 | 17 => {
                    point_at(&mut lane, absent);
                    lane.centerline = Some(self.line(2));
                }
                2 | 3 => {
                    // One side or both without points, and a centreline.
                    if let Some(b) = none {
                        point_at(&mut lane, b);
                        if self.rng.percent(50) {
                            lane.left = b;
                            lane.right = b;
                        }
                        lane.centerline = Some(self.line(2));
                    }
                }
                4 => {
                    if let Some(b) = none {
                        point_at(&mut lane, b);
                    }
                }
                5 | 15 | 16 => lane.centerline = Some(vec![]),
                6 => lane.centerline = Some(self.line(1)),
                7 => {
                    // Repeated, upright or too short to have a direction.
                    let p = self.near_point();
                    let mut q = p;
                    match self.rng.below(3) {
                        0 => {}
                        1 => q[2] += 3.0,
                        _ => q[0] += 5e-10,
                    }
                    if self.take(2) == 2 {
                        lane.centerline = Some(held(vec![p, q]));
                    }
                }
                8 | 9 => {
                    lane.right = lane.left;
                    lane.right_reversed = lane.left_reversed;
                }
                10 => {
                    let p = if self.rng.percent(60) {
                        [0.0; 3]
                    } else {
                        self.near_point()
                    };
                    let step = self.rng.pick(&[0.9e-9, 1e-9, 1.1e-9, 2e-9]);
                    if self.take(2) == 2 {
                        lane.centerline = Some(held(vec![p, [p[0] + step, p[1], p[2]]]));
                    }
                }
                11 => {
                    // Ends repeated or upright: the direction is found behind.
                    let mut line = self.line(4);
                    if let [.., a, b, c] = &mut line[..] {
                        *b = *a;
                        *c = *a;
                        c[2] += self.rng.pick(&[0.0, -2.0]);
                    }
                    lane.centerline = Some(held(line));
                }
                12 => lane.left_reversed = !lane.left_reversed,
                13 | 14 => {
                    let all: Vec<u64> = self.map.boundaries.iter().map(|b| b.number).collect();
                    point_at(&mut lane, self.rng.pick(&all));
                }
                _ => std::mem::swap(&mut lane.left, &mut lane.right),
            }
            self.map.lanes[i] = lane;
        }
    }

    /// Lays lanes on others: with sides of theirs, the same way, the other way
    /// or crosswise, or with one boundary on both sides.
    fn shared_lanes(&mut self) {
        for i in 0..self.map.lanes.len() {
            let other = self.rng.pick(&self.map.lanes);
            let mut lane = self.map.lanes[i].clone();
            match self.rng.below(12) {
                0..3 => {
                    (lane.left, lane.left_reversed) = (other.left, other.left_reversed);
                    (lane.right, lane.right_reversed) = (other.right, other.right_reversed);
                    if self.rng.percent(50) {
                        lane.centerline = other.centerline;
                    }
                }
                3 | 4 => {
                    // The same road the other way.
                    (lane.left, lane.left_reversed) = (other.right, !other.right_reversed);
                    (lane.right, lane.right_reversed) = (other.left, !other.left_reversed);
                }
                5 => (lane.left, lane.left_reversed) = (other.left, other.left_reversed),
                6 => (lane.right, lane.right_reversed) = (other.right, other.right_reversed),
                7 => {
                    // One boundary on both sides.
                    lane.right = lane.left;
                    lane.right_reversed = self.rng.percent(50);
                }
                8 => std::mem::swap(&mut lane.left, &mut lane.right),
                9 => self.copy_boundary(lane.left, other.left),
                10 => self.bend_round(&mut lane),
                _ => {}
            }
            self.map.lanes[i] = lane;
        }
    }

    /// One boundary as another lies: equal points under two numbers.
    fn copy_boundary(&mut self, to: u64, from: u64) {
        let Some(points) = self.map.boundary(from).map(|b| b.points.clone()) else {
            return;
        };
        if let Some(b) = self.map.boundaries.iter_mut().find(|b| b.number == to)
            && points.len() <= self.room
        {
            self.room -= points.len();
            b.points = points;
        }
    }

    /// One boundary goes round the lane: it is its left side, and backwards its
    /// right one, and each way the nearest point lies on its own side.
    fn bend_round(&mut self, lane: &mut Lane) {
        let road = Road {
            bend: 0.0,
            ..self.road()
        };
        let (long, half) = (self.rng.range(20.0, 60.0), self.rng.range(1.5, 3.0));
        let round = [(0.0, half), (long, half), (long, -half), (0.0, -half)];
        let middle = [(0.0, 0.0), (long - 2.0 * half, 0.0)];
        let laid = |at: &[(f64, f64)]| held(at.iter().map(|(u, v)| road.at(*u, *v)).collect());
        if let Some(b) = self
            .map
            .boundaries
            .iter_mut()
            .find(|b| b.number == lane.left)
            && self.room >= 6
        {
            self.room -= 6;
            b.points = laid(&round);
            lane.right = lane.left;
            lane.left_reversed = false;
            lane.right_reversed = true;
            lane.centerline = Some(laid(&middle));
        }
    }

    /// A point beside some boundary, or anywhere.
    fn near_point(&mut self) -> Point {
        let all: Vec<Point> = self
            .map
            .boundaries
            .iter()
            .filter_map(|b| b.points.last().copied())
            .collect();
        let mut p = self.rng.pick_some(&all).unwrap_or([0.0; 3]);
        if self.rng.percent(80) {
            p[0] += self.rng.range(-6.0, 6.0);
            p[1] += self.rng.range(-6.0, 6.0);
        }
        held(vec![p])[0]
    }

    fn line(&mut self, n: usize) -> Vec<Point> {
        let n = self.take(n);
        (0..n).map(|_| self.near_point()).collect()
    }

    fn stop_lines(&mut self) {
        for number in self.line_numbers.clone() {
            let points = match self.rng.below(12) {
                0 | 1 => vec![],
                2 => self.line(1),
                3 if self.take(2) == 2 => {
                    let p = self.near_point();
                    vec![p, p]
                }
                4 => {
                    let n = self.rng.between(3, 6);
                    self.line(n)
                }
                _ => self.line(2),
            };
            self.map.stop_lines.push(Line { number, points });
        }
    }

    fn signals(&mut self) {
        for number in self.signal_numbers.clone() {
            let housing = match self.rng.below(10) {
                0 => vec![],
                1 => self.line(1),
                2 => self.line(4),
                _ => self.line(2),
            };
            let n = self.rng.below(5);
            let bulbs = (0..n).map(|_| self.bulb()).collect();
            let height = match self.rng.below(5) {
                0 => None,
                1 => Some(self.rng.pick(&[0.0, -0.0, -3.5, 1e300, 5e-324, f64::MAX])),
                _ => Some(self.rng.range(0.2, 1.5)),
            };
            self.map.signals.push(Signal {
                number,
                pedestrian: self.rng.percent(40),
                housing,
                height,
                bulbs,
            });
        }
    }

    fn bulb(&mut self) -> Bulb {
        Bulb {
            at: self.near_point(),
            color: self.rng.below(4) as u8,
            arrow: self.rng.below(9) as u8,
        }
    }

    fn crosswalks(&mut self) {
        for number in self.crosswalk_numbers.clone() {
            let n = self.rng.pick(&[2, 2, 2, 0, 1, 3]);
            let left = self.line(n);
            let right = self.line(2);
            let outline = if self.rng.percent(25) {
                let n = self.rng.pick(&[0, 3, 4]);
                let mut ring = self.line(n);
                if self.rng.percent(50) && ring.len() > 1 && self.take(1) == 1 {
                    ring.push(ring[0]);
                }
                Some(ring)
            } else {
                None
            };
            self.map.crosswalks.push(Crosswalk {
                number,
                left,
                right,
                outline,
            });
        }
    }

    /// A number that no record of the kind has: gone, at or above next, any.
    fn absent(&mut self) -> u64 {
        let n = self.map.next;
        // Numbers just ahead are handed out later in a run.
        let ahead = n.saturating_add(self.rng.bits() % 12);
        let any = self.rng.bits();
        self.rng.pick(&[n, ahead, ahead, ahead, any, u64::MAX])
    }

    fn from(&mut self, all: &[u64], stray: usize) -> u64 {
        if self.rng.percent(stray) {
            return self.absent();
        }
        self.rng.pick_some(all).unwrap_or(0)
    }

    fn list(&mut self, all: &[u64], most: usize, stray: usize) -> Vec<u64> {
        let n = self.rng.between(0, most);
        let mut out = self.rng.some_of(all, n);
        if self.rng.percent(stray) {
            out.push(self.absent());
        }
        if self.rng.percent(stray)
            && let Some(n) = self.rng.pick_some(&out)
        {
            out.push(n);
        }
        out
    }

    fn rules(&mut self) {
        let lanes = self.lane_numbers.clone();
        let lines = self.line_numbers.clone();
        let crosswalks = self.crosswalk_numbers.clone();
        let by_kind = |m: &FileMap, pedestrian: bool| -> Vec<u64> {
            let own = m.signals.iter().filter(|s| s.pedestrian == pedestrian);
            own.map(|s| s.number).collect()
        };
        let vehicle = by_kind(&self.map, false);
        let pedestrian = by_kind(&self.map, true);
        let all = self.signal_numbers.clone();
        let long = self.rng.percent(5);
        for number in self.rule_numbers.clone() {
            let most = if long { 14 } else { 3 };
            let mut controlled = vec![];
            let what = match self.rng.below(14) {
                0..5 => {
                    let (kind, own) = match self.rng.below(8) {
                        0 => (0, vec![]),
                        1 | 2 => (1, pedestrian.clone()),
                        3 => (2, all.clone()),
                        _ => (3, vehicle.clone()),
                    };
                    let mut signals = self.list(&own, most.min(3), 15);
                    if kind == 3 && signals.is_empty() {
                        signals = self.rng.some_of(&own, 1);
                    }
                    if kind == 1 && self.rng.percent(60) {
                        controlled = self.list(&crosswalks, 2, 5);
                    }
                    let line = match self.rng.below(10) {
                        0..4 => None,
                        _ => Some(self.from(&lines, 7)),
                    };
                    What::Light { signals, line }
                }
                5..8 => What::Sign {
                    sign_type: match self.rng.below(6) {
                        0 => self.rng.pick(&[2, 3, 200, u64::MAX]),
                        _ => 1,
                    },
                    sign: if self.rng.percent(30) {
                        let n = self.rng.between(0, 3);
                        Some(self.line(n))
                    } else {
                        None
                    },
                    line: match self.rng.below(10) {
                        0 => None,
                        _ => Some(self.from(&lines, 10)),
                    },
                },
                8..10 => What::Marking {
                    line: self.from(&lines, 10),
                },
                10 => What::RightOfWay {
                    priority: self.list(&lanes, most, 10),
                    yielding: self.list(&lanes, most, 10),
                    lines: self.list(&lines, most, 10),
                },
                11 | 12 => What::Crosswalk {
                    crosswalk: self.from(&crosswalks, 10),
                    lines: self.list(&lines, most, 10),
                },
                _ => What::Other {
                    kind: self.rng.pick(&[1, 2, 9, u64::MAX]),
                },
            };
            if self.rng.percent(8) {
                controlled = self.list(&crosswalks, 2, 10);
            }
            let own = self.list(&lanes, most, 6);
            self.map.rules.push(Rule {
                number,
                what,
                lanes: own,
                crosswalks: controlled,
            });
        }
    }

    /// Lengthens boundaries until few points or none are left to give.
    fn fill(&mut self) {
        let spare = self.rng.pick(&[0, 1, 2, 3, 4, 6, 10, 20, 40]);
        let mut room = MAX_ALL_POINTS - self.map.point_count();
        while room > spare {
            let i = self.rng.below(self.map.boundaries.len());
            let points = &self.map.boundaries[i].points;
            if points.is_empty() || points.len() == MAX_POINTS {
                continue;
            }
            let mut p = *points.last().expect("not empty");
            if self.rng.percent(70) {
                p = self.near_point();
            }
            self.map.boundaries[i].points.push(p);
            room -= 1;
        }
    }

    fn negative_zeros(&mut self) {
        for b in &mut self.map.boundaries {
            for p in &mut b.points {
                for c in p {
                    if *c == 0.0 {
                        *c = -0.0;
                    }
                }
            }
        }
    }
}

/// The points held to the ceiling for coordinates.
fn held(points: Vec<Point>) -> Vec<Point> {
    points
        .into_iter()
        .map(|p| p.map(|c| c.clamp(-MAX_COORDINATE, MAX_COORDINATE)))
        .collect()
}
