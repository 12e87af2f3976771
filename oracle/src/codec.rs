//! The seven-bit files of 01: map file and change set file, read and written
//! over plain records. A reader takes exactly the bytes that the writer gives.

pub type Point = [f64; 3];

pub const MAX_LANES: usize = 64;
pub const MAX_BOUNDARIES: usize = 128;
pub const MAX_STOP_LINES: usize = 64;
pub const MAX_SIGNALS: usize = 64;
pub const MAX_CROSSWALKS: usize = 32;
pub const MAX_RULES: usize = 128;
pub const MAX_POINTS: usize = 64;
pub const MAX_ALL_POINTS: usize = 1024;
pub const MAX_BULBS: usize = 4;
pub const MAX_RULE_LIST: usize = 16;
pub const MAX_CHANGES: usize = 512;
pub const MAX_WARNINGS: usize = 160;
/// 2^26 metres.
pub const MAX_COORDINATE: f64 = 67_108_864.0;

#[derive(Debug, Clone, PartialEq, Default)]
pub struct FileMap {
    pub next: u64,
    pub lanes: Vec<Lane>,
    pub boundaries: Vec<Line>,
    pub stop_lines: Vec<Line>,
    pub signals: Vec<Signal>,
    pub crosswalks: Vec<Crosswalk>,
    pub rules: Vec<Rule>,
}

#[derive(Debug, Clone, PartialEq)]
pub struct Lane {
    pub number: u64,
    /// 0..7 in `LaneKind`'s order.
    pub kind: u8,
    pub left: u64,
    pub left_reversed: bool,
    pub right: u64,
    pub right_reversed: bool,
    pub centerline: Option<Vec<Point>>,
}

/// A boundary or a stop line.
#[derive(Debug, Clone, PartialEq)]
pub struct Line {
    pub number: u64,
    pub points: Vec<Point>,
}

#[derive(Debug, Clone, PartialEq)]
pub struct Signal {
    pub number: u64,
    pub pedestrian: bool,
    pub housing: Vec<Point>,
    pub height: Option<f64>,
    pub bulbs: Vec<Bulb>,
}

#[derive(Debug, Clone, Copy, PartialEq)]
pub struct Bulb {
    pub at: Point,
    /// 0..3 in `BulbColor`'s order.
    pub color: u8,
    /// 0 for none, 1..8 in `BulbArrow`'s order.
    pub arrow: u8,
}

#[derive(Debug, Clone, PartialEq)]
pub struct Crosswalk {
    pub number: u64,
    pub left: Vec<Point>,
    pub right: Vec<Point>,
    pub outline: Option<Vec<Point>>,
}

#[derive(Debug, Clone, PartialEq)]
pub struct Rule {
    pub number: u64,
    pub what: What,
    pub lanes: Vec<u64>,
    pub crosswalks: Vec<u64>,
}

#[derive(Debug, Clone, PartialEq)]
pub enum What {
    Light {
        signals: Vec<u64>,
        line: Option<u64>,
    },
    Sign {
        sign_type: u64,
        sign: Option<Vec<Point>>,
        line: Option<u64>,
    },
    Marking {
        line: u64,
    },
    RightOfWay {
        priority: Vec<u64>,
        yielding: Vec<u64>,
        lines: Vec<u64>,
    },
    Crosswalk {
        crosswalk: u64,
        lines: Vec<u64>,
    },
    Other {
        kind: u64,
    },
}

/// Kind (1..8 in `EntityRef`'s order) and number. Sorts by kind, then number.
#[derive(Debug, Clone, Copy, PartialEq, Eq, PartialOrd, Ord, Hash)]
pub struct Ref {
    pub kind: u8,
    pub number: u64,
}

#[derive(Debug, Clone, Copy, PartialEq, Eq)]
pub struct Warning {
    /// 1 placement_clamped, 2 orphan_rule, 3 geometry_synthesized, 4 rule_replaced.
    pub code: u8,
    pub entity: Option<Ref>,
}

#[derive(Debug, Clone, PartialEq, Eq, Default)]
pub struct FileSet {
    pub created: Vec<Ref>,
    pub modified: Vec<Ref>,
    pub deleted: Vec<Ref>,
    pub warnings: Vec<Warning>,
}

/// Not such a file, or past a ceiling.
#[derive(Debug, Clone, Copy, PartialEq, Eq)]
pub struct Bad;

type Read<T> = Result<T, Bad>;

fn check(good: bool) -> Read<()> {
    if good { Ok(()) } else { Err(Bad) }
}

// ---------------------------------------------------------------- reading

struct Reader<'a> {
    bytes: &'a [u8],
    used: usize,
}

impl Reader<'_> {
    fn byte(&mut self) -> Read<u8> {
        let b = *self.bytes.get(self.used).ok_or(Bad)?;
        self.used += 1;
        Ok(b)
    }

    fn number(&mut self) -> Read<u64> {
        let mut value = 0u64;
        for group in 0..10 {
            let b = self.byte()?;
            let bits = u64::from(b & 0x7f);
            // The tenth group has room for one bit.
            check(group < 9 || bits <= 1)?;
            value |= bits << (7 * group);
            if b & 0x80 == 0 {
                // A last group of zero would have a shorter form.
                check(b != 0 || group == 0)?;
                return Ok(value);
            }
        }
        Err(Bad)
    }

    fn upto(&mut self, most: u64) -> Read<u64> {
        let n = self.number()?;
        check(n <= most)?;
        Ok(n)
    }

    fn flag(&mut self) -> Read<bool> {
        Ok(self.upto(1)? == 1)
    }

    fn double(&mut self) -> Read<f64> {
        let mut bits = 0u64;
        for i in 0..8 {
            bits |= u64::from(self.byte()?) << (8 * i);
        }
        let v = f64::from_bits(bits);
        check(v.is_finite())?;
        Ok(v)
    }

    fn point(&mut self) -> Read<Point> {
        let p = [self.double()?, self.double()?, self.double()?];
        check(p.iter().all(|c| c.abs() <= MAX_COORDINATE))?;
        Ok(p)
    }

    fn list<T>(&mut self, most: usize, item: fn(&mut Self) -> Read<T>) -> Read<Vec<T>> {
        let n = self.upto(most as u64)?;
        (0..n).map(|_| item(self)).collect()
    }

    fn option<T>(&mut self, item: fn(&mut Self) -> Read<T>) -> Read<Option<T>> {
        Ok(if self.flag()? {
            Some(item(self)?)
        } else {
            None
        })
    }

    fn polyline(&mut self) -> Read<Vec<Point>> {
        self.list(MAX_POINTS, Self::point)
    }

    fn numbers(&mut self) -> Read<Vec<u64>> {
        self.list(MAX_RULE_LIST, Self::number)
    }

    fn lane(&mut self) -> Read<Lane> {
        Ok(Lane {
            number: self.number()?,
            kind: self.upto(7)? as u8,
            left: self.number()?,
            left_reversed: self.flag()?,
            right: self.number()?,
            right_reversed: self.flag()?,
            centerline: self.option(Self::polyline)?,
        })
    }

    fn line(&mut self) -> Read<Line> {
        Ok(Line {
            number: self.number()?,
            points: self.polyline()?,
        })
    }

    fn bulb(&mut self) -> Read<Bulb> {
        Ok(Bulb {
            at: self.point()?,
            color: self.upto(3)? as u8,
            arrow: self.upto(8)? as u8,
        })
    }

    fn signal(&mut self) -> Read<Signal> {
        Ok(Signal {
            number: self.number()?,
            pedestrian: self.flag()?,
            housing: self.polyline()?,
            height: self.option(Self::double)?,
            bulbs: self.list(MAX_BULBS, Self::bulb)?,
        })
    }

    fn crosswalk(&mut self) -> Read<Crosswalk> {
        Ok(Crosswalk {
            number: self.number()?,
            left: self.polyline()?,
            right: self.polyline()?,
            outline: self.option(Self::polyline)?,
        })
    }

    fn rule(&mut self) -> Read<Rule> {
        let number = self.number()?;
        let what = match self.number()? {
            1 => What::Light {
                signals: self.numbers()?,
                line: self.option(Self::number)?,
            },
            2 => {
                let sign_type = self.number()?;
                check(sign_type != 0)?;
                What::Sign {
                    sign_type,
                    sign: self.option(Self::polyline)?,
                    line: self.option(Self::number)?,
                }
            }
            3 => What::Marking {
                line: self.number()?,
            },
            4 => What::RightOfWay {
                priority: self.numbers()?,
                yielding: self.numbers()?,
                lines: self.numbers()?,
            },
            5 => What::Crosswalk {
                crosswalk: self.number()?,
                lines: self.numbers()?,
            },
            6 => {
                let kind = self.number()?;
                check(kind != 0)?;
                What::Other { kind }
            }
            _ => return Err(Bad),
        };
        Ok(Rule {
            number,
            what,
            lanes: self.numbers()?,
            crosswalks: self.numbers()?,
        })
    }

    fn reference(&mut self) -> Read<Ref> {
        let kind = self.upto(8)? as u8;
        check(kind != 0)?;
        Ok(Ref {
            kind,
            number: self.number()?,
        })
    }

    fn warning(&mut self) -> Read<Warning> {
        let code = self.upto(4)? as u8;
        check(code != 0)?;
        let kind = self.upto(8)? as u8;
        let entity = match kind {
            0 => None,
            _ => Some(Ref {
                kind,
                number: self.number()?,
            }),
        };
        Ok(Warning { code, entity })
    }

    fn end(&self) -> Read<()> {
        check(self.used == self.bytes.len())
    }
}

fn rising(numbers: impl Iterator<Item = u64>, next: u64) -> Read<()> {
    let mut last = None;
    for n in numbers {
        check(n < next && last.is_none_or(|l| l < n))?;
        last = Some(n);
    }
    Ok(())
}

/// Reads a map file; refusal 12 is `Bad`.
pub fn read_map(bytes: &[u8]) -> Result<FileMap, Bad> {
    let mut r = Reader { bytes, used: 0 };
    let map = FileMap {
        next: r.number()?,
        lanes: r.list(MAX_LANES, Reader::lane)?,
        boundaries: r.list(MAX_BOUNDARIES, Reader::line)?,
        stop_lines: r.list(MAX_STOP_LINES, Reader::line)?,
        signals: r.list(MAX_SIGNALS, Reader::signal)?,
        crosswalks: r.list(MAX_CROSSWALKS, Reader::crosswalk)?,
        rules: r.list(MAX_RULES, Reader::rule)?,
    };
    r.end()?;
    rising(map.lanes.iter().map(|x| x.number), map.next)?;
    rising(map.boundaries.iter().map(|x| x.number), map.next)?;
    rising(map.stop_lines.iter().map(|x| x.number), map.next)?;
    rising(map.signals.iter().map(|x| x.number), map.next)?;
    rising(map.crosswalks.iter().map(|x| x.number), map.next)?;
    rising(map.rules.iter().map(|x| x.number), map.next)?;
    check(map.point_count() <= MAX_ALL_POINTS)?;
    Ok(map)
}

/// Reads a change set file; refusal 13 is `Bad`.
pub fn read_set(bytes: &[u8]) -> Result<FileSet, Bad> {
    let mut r = Reader { bytes, used: 0 };
    let set = FileSet {
        created: r.list(MAX_CHANGES, Reader::reference)?,
        modified: r.list(MAX_CHANGES, Reader::reference)?,
        deleted: r.list(MAX_CHANGES, Reader::reference)?,
        warnings: r.list(MAX_WARNINGS, Reader::warning)?,
    };
    r.end()?;
    check(set.lists_stand())?;
    Ok(set)
}

impl FileMap {
    /// The points that the ceiling of 1,024 counts: all but bulbs.
    pub fn point_count(&self) -> usize {
        let lanes = self.lanes.iter().filter_map(|l| l.centerline.as_ref());
        let signs = self.rules.iter().filter_map(|r| match &r.what {
            What::Sign { sign, .. } => sign.as_ref(),
            _ => None,
        });
        lanes.map(Vec::len).sum::<usize>()
            + self
                .boundaries
                .iter()
                .map(|b| b.points.len())
                .sum::<usize>()
            + self
                .stop_lines
                .iter()
                .map(|s| s.points.len())
                .sum::<usize>()
            + self.signals.iter().map(|s| s.housing.len()).sum::<usize>()
            + self
                .crosswalks
                .iter()
                .map(|c| c.left.len() + c.right.len() + c.outline.as_ref().map_or(0, Vec::len))
                .sum::<usize>()
            + signs.map(Vec::len).sum::<usize>()
    }

    pub fn record_count(&self) -> usize {
        self.lanes.len()
            + self.boundaries.len()
            + self.stop_lines.len()
            + self.signals.len()
            + self.crosswalks.len()
            + self.rules.len()
    }

    pub fn lane(&self, number: u64) -> Option<&Lane> {
        self.lanes.iter().find(|x| x.number == number)
    }

    pub fn boundary(&self, number: u64) -> Option<&Line> {
        self.boundaries.iter().find(|x| x.number == number)
    }

    pub fn stop_line(&self, number: u64) -> Option<&Line> {
        self.stop_lines.iter().find(|x| x.number == number)
    }

    pub fn signal(&self, number: u64) -> Option<&Signal> {
        self.signals.iter().find(|x| x.number == number)
    }

    pub fn crosswalk(&self, number: u64) -> Option<&Crosswalk> {
        self.crosswalks.iter().find(|x| x.number == number)
    }

    pub fn rule(&self, number: u64) -> Option<&Rule> {
        self.rules.iter().find(|x| x.number == number)
    }
}

impl FileSet {
    /// Each list rises, and no entry is in two of them.
    pub fn lists_stand(&self) -> bool {
        let lists = [&self.created, &self.modified, &self.deleted];
        let rise = lists.iter().all(|l| l.windows(2).all(|w| w[0] < w[1]));
        let apart = |a: &[Ref], b: &[Ref]| a.iter().all(|x| !b.contains(x));
        rise && apart(lists[0], lists[1]) && apart(lists[0], lists[2]) && apart(lists[1], lists[2])
    }

    /// No list is longer than the ceiling for a change set list.
    pub fn lists_fit(&self) -> bool {
        [&self.created, &self.modified, &self.deleted]
            .iter()
            .all(|l| l.len() <= MAX_CHANGES)
    }
}

// ---------------------------------------------------------------- writing

#[derive(Default)]
struct Writer {
    out: Vec<u8>,
}

impl Writer {
    fn number(&mut self, mut n: u64) {
        while n >= 0x80 {
            self.out.push(n as u8 | 0x80);
            n >>= 7;
        }
        self.out.push(n as u8);
    }

    fn flag(&mut self, b: bool) {
        self.number(u64::from(b));
    }

    fn double(&mut self, v: f64) {
        self.out.extend(v.to_bits().to_le_bytes());
    }

    fn point(&mut self, p: &Point) {
        p.iter().for_each(|c| self.double(*c));
    }

    fn list<T>(&mut self, items: &[T], item: fn(&mut Self, &T)) {
        self.number(items.len() as u64);
        items.iter().for_each(|x| item(self, x));
    }

    fn option<T>(&mut self, value: &Option<T>, item: fn(&mut Self, &T)) {
        self.flag(value.is_some());
        value.iter().for_each(|x| item(self, x));
    }

    fn polyline(&mut self, points: &[Point]) {
        self.list(points, Self::point);
    }

    fn plain(&mut self, n: &u64) {
        self.number(*n);
    }

    fn numbers(&mut self, ns: &[u64]) {
        self.list(ns, Self::plain);
    }

    fn lane(&mut self, lane: &Lane) {
        self.number(lane.number);
        self.number(lane.kind.into());
        self.number(lane.left);
        self.flag(lane.left_reversed);
        self.number(lane.right);
        self.flag(lane.right_reversed);
        self.option(&lane.centerline, |w, p| w.polyline(p));
    }

    fn line(&mut self, line: &Line) {
        self.number(line.number);
        self.polyline(&line.points);
    }

    fn bulb(&mut self, bulb: &Bulb) {
        self.point(&bulb.at);
        self.number(bulb.color.into());
        self.number(bulb.arrow.into());
    }

    fn signal(&mut self, signal: &Signal) {
        self.number(signal.number);
        self.flag(signal.pedestrian);
        self.polyline(&signal.housing);
        self.option(&signal.height, |w, h| w.double(*h));
        self.list(&signal.bulbs, Self::bulb);
    }

    fn crosswalk(&mut self, crosswalk: &Crosswalk) {
        self.number(crosswalk.number);
        self.polyline(&crosswalk.left);
        self.polyline(&crosswalk.right);
        self.option(&crosswalk.outline, |w, p| w.polyline(p));
    }

    fn rule(&mut self, rule: &Rule) {
        self.number(rule.number);
        match &rule.what {
            What::Light { signals, line } => {
                self.number(1);
                self.numbers(signals);
                self.option(line, Self::plain);
            }
            What::Sign {
                sign_type,
                sign,
                line,
            } => {
                self.number(2);
                self.number(*sign_type);
                self.option(sign, |w, p| w.polyline(p));
                self.option(line, Self::plain);
            }
            What::Marking { line } => {
                self.number(3);
                self.number(*line);
            }
            What::RightOfWay {
                priority,
                yielding,
                lines,
            } => {
                self.number(4);
                self.numbers(priority);
                self.numbers(yielding);
                self.numbers(lines);
            }
            What::Crosswalk { crosswalk, lines } => {
                self.number(5);
                self.number(*crosswalk);
                self.numbers(lines);
            }
            What::Other { kind } => {
                self.number(6);
                self.number(*kind);
            }
        }
        self.numbers(&rule.lanes);
        self.numbers(&rule.crosswalks);
    }

    fn reference(&mut self, r: &Ref) {
        self.number(r.kind.into());
        self.number(r.number);
    }

    fn warning(&mut self, w: &Warning) {
        self.number(w.code.into());
        match &w.entity {
            None => self.number(0),
            Some(r) => self.reference(r),
        }
    }
}

/// The written form, also of a map past a ceiling (that `read_map` refuses).
pub fn write_map(map: &FileMap) -> Vec<u8> {
    let mut w = Writer::default();
    w.number(map.next);
    w.list(&map.lanes, Writer::lane);
    w.list(&map.boundaries, Writer::line);
    w.list(&map.stop_lines, Writer::line);
    w.list(&map.signals, Writer::signal);
    w.list(&map.crosswalks, Writer::crosswalk);
    w.list(&map.rules, Writer::rule);
    w.out
}

pub fn write_set(set: &FileSet) -> Vec<u8> {
    let mut w = Writer::default();
    w.list(&set.created, Writer::reference);
    w.list(&set.modified, Writer::reference);
    w.list(&set.deleted, Writer::reference);
    w.list(&set.warnings, Writer::warning);
    w.out
}

/// A whole number alone, for published ULEB128 vectors.
pub fn write_number(n: u64) -> Vec<u8> {
    let mut w = Writer::default();
    w.number(n);
    w.out
}

pub fn read_number(bytes: &[u8]) -> Result<u64, Bad> {
    let mut r = Reader { bytes, used: 0 };
    let n = r.number()?;
    r.end()?;
    Ok(n)
}

// ------------------------------------------------------------- hexadecimal

pub fn to_hex(bytes: &[u8]) -> String {
    const DIGITS: &[u8; 16] = b"0123456789abcdef";
    let mut out = String::with_capacity(bytes.len() * 2);
    for b in bytes {
        out.push(DIGITS[usize::from(b >> 4)] as char);
        out.push(DIGITS[usize::from(b & 15)] as char);
    }
    out
}

/// Reads hexadecimal digits; spaces may stand between them, as 01 prints them.
pub fn from_hex(text: &str) -> Option<Vec<u8>> {
    let digits: Option<Vec<u32>> = text
        .chars()
        .filter(|c| *c != ' ')
        .map(|c| c.to_digit(16))
        .collect();
    let digits = digits?;
    if digits.len() % 2 != 0 {
        return None;
    }
    Some(digits.chunks(2).map(|d| (d[0] * 16 + d[1]) as u8).collect())
}

/// 64-bit FNV-1a.
pub fn fnv1a(bytes: &[u8]) -> u64 {
    bytes.iter().fold(0xcbf2_9ce4_8422_2325, |h, b| {
        (h ^ u64::from(*b)).wrapping_mul(0x0000_0100_0000_01b3)
    })
}
