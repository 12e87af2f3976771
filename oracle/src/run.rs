//! A run: a map, its running fold, and calls one after another.

use vectormap_core as vm;

use crate::codec::{self, FileMap, FileSet, What, write_map, write_set};
use crate::edits::{self, Call, Choice, End, NewLight, Outcome, Refusal};
use crate::model::{self, Judged};
use crate::{convert, fold};

/// Why an input is left out of the runs.
#[derive(Debug, Clone, Copy, PartialEq, Eq, PartialOrd, Ord)]
pub enum Reason {
    OffMap,
    Full,
    Spent,
    AbsentLine,
    GroupLine,
    KeptRule,
}

impl Reason {
    pub fn name(self) -> &'static str {
        match self {
            Reason::OffMap => "9 off the map",
            Reason::Full => "10 full",
            Reason::Spent => "11 numbers spent",
            Reason::AbsentLine => "2 absent stop line of a rule (the Rust panics)",
            Reason::GroupLine => "a new line or none for a group with a line",
            Reason::KeptRule => "a rule that the Rust keeps and 01 lifts",
        }
    }
}

#[derive(Debug, Clone, PartialEq)]
pub enum Verdict {
    /// The Rust's answer, and 01's is the same.
    Answer(Outcome),
    /// Not to be compared. The map stays as it is; the refusal is 01's, with
    /// number 0 where it carries the call out.
    LeftOut(Reason, Refusal),
    /// The Rust and 01 as read here differ: a finding.
    Disagree(Box<(Outcome, Judged)>),
}

#[derive(Debug, Clone)]
pub struct Run {
    pub map: vm::Map,
    pub file: FileMap,
    pub fold: vm::ChangeSet,
    /// At each end of the line that the last accepted call drew: the other
    /// sides that lie as far out.
    pub rivals: [Vec<End>; 2],
    opening: usize,
}

impl Run {
    pub fn open(file: FileMap) -> Self {
        Run {
            map: convert::to_map(&file),
            opening: file.record_count(),
            file,
            fold: vm::ChangeSet::new(),
            rivals: [vec![], vec![]],
        }
    }

    pub fn map_bytes(&self) -> Vec<u8> {
        write_map(&self.file)
    }

    pub fn fold_file(&self) -> FileSet {
        convert::from_set(&self.fold)
    }

    pub fn fold_bytes(&self) -> Vec<u8> {
        write_set(&self.fold_file())
    }

    /// What naming the group's line asks, where a light asks for no line and
    /// its group has one: the Rust's answer to it is 01's to the call.
    pub fn named(&self, call: &Call) -> Option<Call> {
        let Call::Light(light) = call else {
            return None;
        };
        let own = model::joined_line(&self.file, light)?;
        (light.choice == Choice::None).then(|| {
            Call::Light(NewLight {
                choice: Choice::Existing(own),
                ..light.clone()
            })
        })
    }

    /// A light whose group has a line, and that asks for a new one or for
    /// none. Not compared; but where it asks for none, which the model takes
    /// for the line named, the Rust must agree on the call that names it.
    fn joins(&self, call: &Call, judged: Judged) -> Verdict {
        if let Some(named) = self.named(call) {
            let beside = self.clone().call(&named);
            if matches!(beside, Verdict::Disagree(_)) {
                return beside;
            }
        }
        let refusal = match judged {
            Judged::Refused(r) | Judged::Last(r) | Judged::AbsentLine(r) => r,
            Judged::Done { .. } => Refusal::new(0, &[]),
        };
        Verdict::LeftOut(Reason::GroupLine, refusal)
    }

    pub fn call(&mut self, call: &Call) -> Verdict {
        let judged = model::judge(&self.file, call);
        if let Call::Light(light) = call
            && model::joined_line(&self.file, light).is_some()
        {
            return self.joins(call, judged);
        }
        let mut edited = self.map.clone();
        let rust = edits::answer(&mut edited, call);
        match (&rust, &judged) {
            (_, Judged::AbsentLine(r)) => match rust {
                Outcome::Panic => Verdict::LeftOut(Reason::AbsentLine, r.clone()),
                _ => Verdict::Disagree(Box::new((rust, judged))),
            },
            // Numbers that run out panic where overflow is checked.
            (Outcome::Done { .. } | Outcome::Panic, Judged::Last(r)) => left_out(r),
            // Given points: 9 and 10 stand amid the Rust's own checks.
            (_, Judged::Refused(r)) if r.number >= 9 && !comes_before(&rust) => left_out(r),
            (Outcome::Refused(r), Judged::Refused(s)) if r == s => Verdict::Answer(rust),
            (
                Outcome::Done { number, set, ends },
                Judged::Done {
                    number: n,
                    set: s,
                    ends: named,
                    map,
                },
            ) => {
                let file = convert::from_map(&edited);
                let same_ends = *ends == named.as_ref().map(|e| e.ends);
                if number == n && set == s && same_ends && write_map(&file) == write_map(map) {
                    let set = convert::to_set(set);
                    self.accept(edited, file, set);
                    self.rivals = named.clone().map_or([vec![], vec![]], |e| e.rivals);
                    Verdict::Answer(rust)
                } else if same_ends && keeps_rule(&self.file, call, &file) {
                    Verdict::LeftOut(Reason::KeptRule, Refusal::new(0, &[]))
                } else {
                    Verdict::Disagree(Box::new((rust, judged)))
                }
            }
            _ => Verdict::Disagree(Box::new((rust, judged))),
        }
    }

    fn accept(&mut self, map: vm::Map, file: FileMap, set: vm::ChangeSet) {
        self.map = map;
        self.file = file;
        fold::join(&mut self.fold, set);
        let f = self.fold_file();
        // What 01 says of every run; the written forms are files.
        assert!(codec::read_map(&self.map_bytes()).is_ok());
        assert!(codec::read_set(&write_set(&f)).is_ok());
        assert_eq!(
            self.file.record_count() + f.deleted.len(),
            self.opening + f.created.len()
        );
    }
}

fn left_out(r: &Refusal) -> Verdict {
    let reason = match r.number {
        9 => Reason::OffMap,
        10 => Reason::Full,
        _ => Reason::Spent,
    };
    Verdict::LeftOut(reason, r.clone())
}

/// Refusals that come before given points are looked at.
fn comes_before(rust: &Outcome) -> bool {
    let Outcome::Refused(r) = rust else {
        return false;
    };
    matches!(
        (r.number, r.details.first()),
        (1 | 3 | 8, _) | (2 | 4, Some(1))
    )
}

/// The line that a light names, finds or draws.
fn line_of_light(map: &FileMap, light: &NewLight) -> Option<u64> {
    let own = light
        .group
        .and_then(|g| map.rule(g))
        .and_then(|r| match &r.what {
            What::Light { line, .. } => *line,
            _ => None,
        });
    match light.choice {
        Choice::Existing(s) => Some(s),
        Choice::New(_) => Some(map.next.max(1)),
        Choice::None => None,
        Choice::Auto => own
            .or_else(|| model::line_of_lane(map, light.lanes[0]))
            .or(Some(map.next.max(1))),
    }
}

/// Whether the Rust has left a stop rule on the light's line for one of its
/// lanes, which 01 lifts.
fn keeps_rule(before: &FileMap, call: &Call, after: &FileMap) -> bool {
    let Call::Light(light) = call else {
        return false;
    };
    let Some(line) = line_of_light(before, light) else {
        return false;
    };
    after
        .rules
        .iter()
        .any(|r| model::is_stop_rule_on(r, line) && r.lanes.iter().any(|l| light.lanes.contains(l)))
}
