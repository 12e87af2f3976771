//! The line protocol: one request a line, one answer a line. README.md has
//! the grammar.

use crate::codec::{self, Bulb, FileSet, Point, from_hex, to_hex};
use crate::edits::{
    Call, Choice, Ends, NewLight, NewLine, NewLinks, Outcome, Placement, Refusal, StopRule,
};
use crate::geometry::{self, Arg};
use crate::run::{Run, Verdict};
use crate::{convert, fold};

/// A request that does not follow the grammar.
type Parsed<T> = Result<T, String>;

pub struct Tokens<'a> {
    rest: std::str::Split<'a, char>,
}

impl<'a> Tokens<'a> {
    pub fn new(line: &'a str) -> Self {
        Tokens {
            rest: line.split(' '),
        }
    }

    pub fn word(&mut self) -> Parsed<&'a str> {
        match self.rest.next() {
            Some(w) if !w.is_empty() => Ok(w),
            _ => Err("a token is missing".into()),
        }
    }

    pub fn number(&mut self) -> Parsed<u64> {
        let w = self.word()?;
        w.parse().map_err(|_| format!("no number: {w}"))
    }

    pub fn double(&mut self) -> Parsed<f64> {
        let w = self.word()?;
        match u64::from_str_radix(w, 16) {
            Ok(bits) if w.len() == 16 => Ok(f64::from_bits(bits)),
            _ => Err(format!("no double: {w}")),
        }
    }

    pub fn bytes(&mut self) -> Parsed<Vec<u8>> {
        // No bytes at all are written as `-`, since no token is empty.
        match self.word()? {
            "-" => Ok(vec![]),
            w => from_hex(w).ok_or_else(|| "no bytes".into()),
        }
    }

    fn list<T>(&mut self, item: fn(&mut Self) -> Parsed<T>) -> Parsed<Vec<T>> {
        let n = self.number()?;
        (0..n).map(|_| item(self)).collect()
    }

    fn option<T>(&mut self, item: fn(&mut Self) -> Parsed<T>) -> Parsed<Option<T>> {
        match self.number()? {
            0 => Ok(None),
            1 => item(self).map(Some),
            n => Err(format!("no option: {n}")),
        }
    }

    fn point(&mut self) -> Parsed<Point> {
        Ok([self.double()?, self.double()?, self.double()?])
    }

    pub fn points(&mut self) -> Parsed<Vec<Point>> {
        self.list(Self::point)
    }

    fn numbers(&mut self) -> Parsed<Vec<u64>> {
        self.list(Self::number)
    }

    fn upto(&mut self, most: u64) -> Parsed<u8> {
        match self.number()? {
            n if n <= most => Ok(n as u8),
            n => Err(format!("{n} is above {most}")),
        }
    }

    fn bulb(&mut self) -> Parsed<Bulb> {
        Ok(Bulb {
            at: self.point()?,
            color: self.upto(3)?,
            arrow: self.upto(8)?,
        })
    }

    fn placement(&mut self) -> Parsed<Placement> {
        Ok(match self.upto(2)? {
            0 => Placement::LaneEnd(self.double()?),
            1 => Placement::Station(self.double()?),
            _ => Placement::Given(self.points()?),
        })
    }

    fn choice(&mut self) -> Parsed<Choice> {
        Ok(match self.upto(3)? {
            0 => Choice::Auto,
            1 => Choice::Existing(self.number()?),
            2 => Choice::New(self.placement()?),
            _ => Choice::None,
        })
    }

    fn new_line(&mut self) -> Parsed<NewLine> {
        Ok(NewLine {
            lanes: self.numbers()?,
            placement: self.placement()?,
            rule: match self.upto(2)? {
                0 => StopRule::Sign,
                1 => StopRule::Marking,
                _ => StopRule::None,
            },
        })
    }

    fn new_light(&mut self) -> Parsed<NewLight> {
        Ok(NewLight {
            lanes: self.numbers()?,
            choice: self.choice()?,
            housing: self.option(Self::points)?,
            height: self.option(Self::double)?,
            pedestrian: self.upto(1)? == 1,
            bulbs: self.option(|t| t.list(Self::bulb))?,
            group: self.option(Self::number)?,
        })
    }

    fn new_links(&mut self) -> Parsed<NewLinks> {
        Ok(NewLinks {
            rule: self.number()?,
            lanes: self.numbers()?,
            crosswalks: self.numbers()?,
            lines: self.numbers()?,
        })
    }

    fn end(mut self) -> Parsed<()> {
        match self.rest.next() {
            None => Ok(()),
            Some(w) => Err(format!("left over: {w}")),
        }
    }
}

/// The call that a request line `line ..`, `light ..` or `links ..` makes.
pub fn read_call(line: &str) -> Parsed<Call> {
    let mut t = Tokens::new(line);
    let call = match t.word()? {
        "line" => Call::Line(t.new_line()?),
        "light" => Call::Light(t.new_light()?),
        "links" => Call::Links(t.new_links()?),
        w => return Err(format!("no edit: {w}")),
    };
    t.end()?;
    Ok(call)
}

// ----------------------------------------------------------------- writing

struct Text(String);

impl Text {
    fn word(&mut self, w: impl std::fmt::Display) {
        if !self.0.is_empty() {
            self.0.push(' ');
        }
        self.0.push_str(&w.to_string());
    }

    fn double(&mut self, v: f64) {
        self.word(format_args!("{:016x}", v.to_bits()));
    }

    fn point(&mut self, p: &Point) {
        p.iter().for_each(|c| self.double(*c));
    }

    fn points(&mut self, points: &[Point]) {
        self.word(points.len());
        points.iter().for_each(|p| self.point(p));
    }

    fn numbers(&mut self, ns: &[u64]) {
        self.word(ns.len());
        ns.iter().for_each(|n| self.word(n));
    }

    fn placement(&mut self, p: &Placement) {
        match p {
            Placement::LaneEnd(offset) => {
                self.word(0);
                self.double(*offset);
            }
            Placement::Station(station) => {
                self.word(1);
                self.double(*station);
            }
            Placement::Given(points) => {
                self.word(2);
                self.points(points);
            }
        }
    }
}

/// The request line of a call; `read_call` takes it back.
pub fn write_call(call: &Call) -> String {
    let mut t = Text(String::new());
    match call {
        Call::Line(line) => {
            t.word("line");
            t.numbers(&line.lanes);
            t.placement(&line.placement);
            t.word(match line.rule {
                StopRule::Sign => 0,
                StopRule::Marking => 1,
                StopRule::None => 2,
            });
        }
        Call::Light(light) => {
            t.word("light");
            t.numbers(&light.lanes);
            match &light.choice {
                Choice::Auto => t.word(0),
                Choice::Existing(s) => {
                    t.word(1);
                    t.word(s);
                }
                Choice::New(p) => {
                    t.word(2);
                    t.placement(p);
                }
                Choice::None => t.word(3),
            }
            t.word(u8::from(light.housing.is_some()));
            light.housing.iter().for_each(|h| t.points(h));
            t.word(u8::from(light.height.is_some()));
            light.height.iter().for_each(|h| t.double(*h));
            t.word(u8::from(light.pedestrian));
            t.word(u8::from(light.bulbs.is_some()));
            if let Some(bulbs) = &light.bulbs {
                t.word(bulbs.len());
                for b in bulbs {
                    t.point(&b.at);
                    t.word(b.color);
                    t.word(b.arrow);
                }
            }
            t.word(u8::from(light.group.is_some()));
            light.group.iter().for_each(|g| t.word(g));
        }
        Call::Links(links) => {
            t.word("links");
            t.word(links.rule);
            t.numbers(&links.lanes);
            t.numbers(&links.crosswalks);
            t.numbers(&links.lines);
        }
    }
    t.0
}

/// The request line of a geometry call.
pub fn write_geometry(name: &str, args: &[Arg]) -> String {
    let mut t = Text("geom".into());
    t.word(name);
    for a in args {
        match a {
            Arg::Double(v) => t.double(*v),
            Arg::Number(n) => t.word(n),
            Arg::Polyline(p) => t.points(&convert::points(&p.points)),
        }
    }
    t.0
}

/// `refused` or `out`, the number and the details.
pub fn write_refusal(word: &str, r: &Refusal) -> String {
    let mut t = Text(word.into());
    t.word(r.number);
    r.details.iter().for_each(|d| t.word(d));
    t.0
}

/// `-`, or `+` and lane and side of the left end, then of the right.
pub fn write_ends(ends: &Option<Ends>) -> String {
    let mut t = Text(if ends.is_some() { "+" } else { "-" }.into());
    for end in ends.iter().flatten() {
        t.word(end.lane);
        t.word(end.side);
    }
    t.0
}

// ----------------------------------------------------------------- serving

/// What stands between requests: a run, and a fold of sets handed in.
#[derive(Default)]
pub struct Server {
    run: Option<Run>,
    /// Map files in answers are given by their hash.
    brief: bool,
    sets: FileSet,
    /// Calls on which the Rust and 01 differ, for the exit code.
    pub disagreements: usize,
}

impl Server {
    pub fn answer(&mut self, line: &str) -> String {
        self.request(line).unwrap_or_else(|e| format!("error {e}"))
    }

    fn run(&mut self) -> Parsed<&mut Run> {
        self.run.as_mut().ok_or_else(|| "no map is set".into())
    }

    fn request(&mut self, line: &str) -> Parsed<String> {
        let mut t = Tokens::new(line);
        let word = t.word()?;
        Ok(match word {
            "line" | "light" | "links" => return self.call(line),
            "map" => {
                let bytes = t.bytes()?;
                t.end()?;
                match codec::read_map(&bytes) {
                    Ok(file) => {
                        self.run = Some(Run::open(file));
                        "ok".into()
                    }
                    Err(_) => "refused 12".into(),
                }
            }
            "set" => {
                let bytes = t.bytes()?;
                t.end()?;
                match codec::read_set(&bytes) {
                    Ok(_) => "ok".into(),
                    Err(_) => "refused 13".into(),
                }
            }
            "geom" => geometry_call(t)?,
            "sets" => {
                t.end()?;
                self.sets = FileSet::default();
                "ok".into()
            }
            "join" => {
                let bytes = t.bytes()?;
                t.end()?;
                match codec::read_set(&bytes) {
                    Err(_) => "refused 13".into(),
                    Ok(set) => {
                        let joined = fold::join_file(&self.sets, &set);
                        if joined.lists_fit() {
                            self.sets = joined;
                            format!("done {}", to_hex(&codec::write_set(&self.sets)))
                        } else {
                            "refused 10".into()
                        }
                    }
                }
            }
            "full" | "brief" => {
                t.end()?;
                self.brief = word == "brief";
                "ok".into()
            }
            "file" => {
                t.end()?;
                to_hex(&self.run()?.map_bytes())
            }
            "fold" => {
                t.end()?;
                to_hex(&self.run()?.fold_bytes())
            }
            "tally" => {
                t.end()?;
                let f = self.run()?.fold_file();
                format!(
                    "{} {} {}",
                    f.created.len(),
                    f.modified.len(),
                    f.deleted.len()
                )
            }
            w => return Err(format!("no request: {w}")),
        })
    }

    fn call(&mut self, line: &str) -> Parsed<String> {
        let call = read_call(line)?;
        let brief = self.brief;
        let run = self.run()?;
        Ok(match run.call(&call) {
            Verdict::Answer(outcome) => write_outcome(&outcome, run, brief),
            Verdict::LeftOut(_, refusal) => write_refusal("out", &refusal),
            Verdict::Disagree(both) => {
                self.disagreements += 1;
                format!("disagree {both:?}")
            }
        })
    }
}

/// The answer to a call, the run being as the call left it.
pub fn write_outcome(outcome: &Outcome, run: &Run, brief: bool) -> String {
    match outcome {
        Outcome::Refused(refusal) => write_refusal("refused", refusal),
        Outcome::Panic => "panic".into(),
        Outcome::Done { number, set, ends } => {
            let map = run.map_bytes();
            let map = if brief {
                format!("#{:016x}", codec::fnv1a(&map))
            } else {
                to_hex(&map)
            };
            format!(
                "done {number} {} {} {map} {}",
                to_hex(&codec::write_set(set)),
                write_ends(ends),
                to_hex(&run.fold_bytes())
            )
        }
    }
}

fn geometry_call(mut t: Tokens) -> Parsed<String> {
    let name = t.word()?;
    let takes = geometry::FUNCTIONS
        .iter()
        .find(|f| f.0 == name)
        .ok_or_else(|| format!("no function: {name}"))?
        .1;
    let mut args = vec![];
    for kind in takes.chars() {
        args.push(match kind {
            'd' => Arg::Double(t.double()?),
            'n' => Arg::Number(t.number()?),
            _ => Arg::Polyline(convert::polyline(&t.points()?)),
        });
    }
    t.end()?;
    Ok(geometry::answer(name, &args))
}

/// Replays a file of requests and answers. An answer stands on the line after
/// its request and begins with `= `; lines that begin with `#` are notes.
/// Gives the number of answers and the differences.
pub fn replay(text: &str) -> (usize, Vec<String>) {
    let mut server = Server::default();
    let mut answers = 0;
    let mut differences = vec![];
    let mut pending: Option<(usize, String)> = None;
    for (i, line) in text.lines().enumerate() {
        if line.starts_with('#') || line.is_empty() {
            continue;
        }
        match (line.strip_prefix("= "), pending.take()) {
            (Some(want), Some((at, got))) => {
                answers += 1;
                if want != got {
                    differences.push(format!("line {at}: stored {want}, now {got}"));
                }
            }
            (None, None) => pending = Some((i + 1, server.answer(line))),
            (_, before) => {
                differences.push(format!("line {}: request and answer out of step", i + 1));
                pending = before;
            }
        }
    }
    if let Some((at, _)) = pending {
        differences.push(format!("line {at}: no answer"));
    }
    (answers, differences)
}
