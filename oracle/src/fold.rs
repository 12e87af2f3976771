//! The fold of change sets, by the supplied `ChangeSet::extend`.

use vectormap_core as vm;

use crate::codec::FileSet;
use crate::convert;

/// Joins one more set to a fold and drops warnings, as 01 says.
pub fn join(fold: &mut vm::ChangeSet, set: vm::ChangeSet) {
    fold.extend(set);
    fold.warnings.clear();
}

/// The same over plain records.
pub fn join_file(fold: &FileSet, set: &FileSet) -> FileSet {
    let mut f = convert::to_set(fold);
    join(&mut f, convert::to_set(set));
    convert::from_set(&f)
}

/// The fold of several sets, one at a time, begun empty.
pub fn fold_all(sets: &[FileSet]) -> FileSet {
    sets.iter()
        .fold(FileSet::default(), |fold, set| join_file(&fold, set))
}
