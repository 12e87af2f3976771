//! stack: how much stack each call needs, for include/lane_map.h. Each call is made in a process of its own, on a thread with a stack of
//! a given size, and the smallest size that is enough is looked for. A fold of more than 256 entries in a list is the case in which
//! an edit works in the most memory of its own.

use bench::edits::{Args, Lent};
use bench::files;
use bench::tables::{SET_WORDS, Tables, set_words};
use oracle::codec::{FileMap, FileSet, Ref, write_map, write_set};
use oracle::edits::{Call, Choice, NewLight, NewLine, NewLinks, Placement, StopRule};
use std::process::Command;
use std::thread;

const CALLS: [&str; 9] = [
    "map file read",
    "map file written",
    "set file read",
    "set file written",
    "stop line",
    "light",
    "links",
    "stop line, long fold",
    "light, long fold",
];

/// The full map less a line, a signal and a rule: there is room for one more of each.
fn map() -> FileMap {
    let mut map = files::full_map();
    map.stop_lines.pop();
    map.signals.pop();
    map.rules.pop();
    map
}

/// 300 records as modified.
fn long_fold() -> FileSet {
    let refs = |kind, from: u64, n| (from..from + n).map(move |number| Ref { kind, number });
    FileSet {
        modified: refs(1, 129, 64)
            .chain(refs(2, 1, 128))
            .chain(refs(5, 193, 63))
            .chain(refs(6, 257, 45))
            .collect(),
        ..FileSet::default()
    }
}

fn lent(long: bool) -> Lent {
    let mut lent = Lent::open(&map());
    if long {
        let fold = long_fold();
        lent.fold = set_words(&fold);
        lent.tally = [0, fold.modified.len() as u64, 0];
    }
    lent
}

fn edit(which: usize) -> (Args, Lent) {
    let call = match which {
        4 | 7 => Call::Line(NewLine {
            lanes: vec![192],
            placement: Placement::LaneEnd(0.0),
            rule: StopRule::Sign,
        }),
        5 | 8 => Call::Light(NewLight {
            lanes: vec![192],
            choice: Choice::Auto,
            housing: None,
            height: None,
            pedestrian: false,
            bulbs: None,
            group: None,
        }),
        _ => Call::Links(NewLinks {
            rule: 353,
            lanes: vec![130, 129],
            crosswalks: vec![],
            lines: vec![193],
        }),
    };
    (Args::of(&call), lent(which > 6))
}

/// Makes the call on a thread with that much stack.
fn child(which: usize, stack: usize) {
    let file = write_map(&files::full_map());
    let set = write_set(&files::full_set());
    let mut tables = Tables::of(&files::full_map());
    let mut words = set_words(&files::full_set());
    let mut buffer = vec![0; 65536];
    let work: Box<dyn FnOnce() -> u64 + Send> = match which {
        0 => Box::new(move || files::read(&file, &mut tables)),
        1 => Box::new(move || files::write(&tables, &mut buffer, &mut [0])),
        2 => Box::new(move || files::read_changes(&set, &mut words)),
        3 => Box::new(move || files::write_changes(&words, &mut buffer, &mut [0])),
        _ => {
            let (args, mut lent) = edit(which);
            assert_eq!(lent.fold.len(), SET_WORDS);
            Box::new(move || lent.call(&args)[0])
        }
    };
    let run = thread::Builder::new().stack_size(stack).spawn(work);
    assert_eq!(run.unwrap().join().unwrap(), 0, "{}", CALLS[which]);
}

fn enough(which: usize, stack: usize) -> bool {
    let me = std::env::current_exe().unwrap();
    let args = [which.to_string(), stack.to_string()];
    Command::new(me).args(args).output().unwrap().status.success()
}

fn main() {
    let args: Vec<usize> = std::env::args().skip(1).map(|a| a.parse().unwrap()).collect();
    if let [which, stack] = args[..] {
        return child(which, stack);
    }
    for (which, name) in CALLS.iter().enumerate() {
        let (mut low, mut high) = (4, 256);
        assert!(enough(which, high * 4096), "{name}: not with 1 MB");
        while high - low > 1 {
            let mid = (low + high) / 2;
            if enough(which, mid * 4096) {
                high = mid;
            } else {
                low = mid;
            }
        }
        println!("{name:<22} {:>4} KB", high * 4);
    }
}
