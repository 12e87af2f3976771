#!/bin/sh
# edits.sh [NAME..]: tries the must-fail edits that stand outside the gate (checks/edits/CRATE/*.edit), of all crates or of those named.
# Each must be refused, as those of the gate. It works on a copy in a folder of its own, with what is proved already (crates/*/out) taken over.
# Four edits of codec's definitions are refused by laws that stand beside them in specs/ (`ended_got`, `low_there`, `groups_there`): rt must-fail calls such
# an edit one that cannot be read, with the law that was rejected, and of these four alone it is taken.
set -eu
cd "$(dirname "$0")/.."
[ $# -gt 0 ] || set -- $(ls checks/edits)
for name in "$@"; do
    [ -d "checks/edits/$name" ] || { echo "edits.sh: no edits of $name outside the gate" >&2; exit 2; }
done
copy=$(mktemp -d)
trap 'rm -rf "$copy"' EXIT
cp crates.txt "$copy"
[ ! -f HANDLES ] || cp HANDLES "$copy"
cp -R crates "$copy/crates"
rm -rf "$copy"/crates/*/must-fail
for name in "$@"; do
    cp -R "checks/edits/$name" "$copy/crates/$name/must-fail"
done
cd "$copy"
{ rt must-fail "$@" || true; } 2>&1 | tee said
wanted=$(ls crates/*/must-fail/*.edit | wc -l)
laws='codec/(bytes_left_over|high_byte_first|longer_form_read|two_to_the_64_read)\.edit: BAD EDIT: .* depends? on `(ended_got|low_there|groups_there)`, which was rejected'
refused=$(grep -cE "\.edit: refused, as it must be|$laws" said || true)
echo "edits.sh: $refused of $wanted refused"
[ "$refused" -eq "$wanted" ]
