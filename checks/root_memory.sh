#!/bin/sh
# root_memory.sh: that the root has one loop and no table. Its source has one loop statement, no constant and no array; the numbers that it
# is written with are listed, for a reader to see that none is a root. In the built library `square_root_bits` and what it calls refer to
# code alone, and the only data of all are the 8 bytes of the NaN that `square_root` answers.
set -eu
cd "$(dirname "$0")/.."
fail() {
    echo "root_memory.sh: $1" >&2
    exit 1
}

# the code: comments, attributes and contracts apart
code=$(sed -e 's,//.*,,' -e '/^#!*\[.*\]$/d' -e '/^ghost use/d' -e '/^ *requires {/d' -e '/^ *ensures {/d' crates/root/src/lib.rt)
loops=$(echo "$code" | grep -cwE 'while|for|loop') || true
[ "$loops" = 1 ] || fail "$loops loop statements"
if echo "$code" | grep -nE '\<const\>|\<static\>|\['; then fail "a constant or an array"; fi
# a path is of a number's type; no crate but this one is named or listed
grep -qx 'root:' crates.txt || fail "crates.txt lists crates that it needs"
if echo "$code" | grep -nwE 'use|mod'; then fail "an item of another file or crate"; fi
paths=$(echo "$code" | grep -oE '[a-z0-9_]+::[a-z0-9_:]+' | grep -vE '^(u64::leading_zeros|f64::to_bits|f64::from_bits)$') || true
[ -z "$paths" ] || fail "an item of another crate: $paths"
echo "loop statements: 1; constants, arrays, other crates: none"
echo "numbers: $(echo "$code" | grep -oE '\<[0-9][0-9A-Fa-fx_]*' | sed 's/_//g' | sort -u | tr '\n' ' ')"

(cd crates/root_c && rt lib >/dev/null)
library=crates/root_c/out/libroot_c.a
data=$(objdump -h "$library" | awk '/^ *[0-9]+ \./ { name = $2; size = $3 } /ALLOC/ && !/CODE/ { print name, size }')
[ "$data" = ".rodata.cst8 00000008" ] || fail "data: $data"
objdump -s -j .rodata.cst8 "$library" | grep -q ' 0000 00000000 0000f87f ' || fail "8 bytes that are not the NaN"
others=$(objdump -dr "$library" | awk '/^[0-9a-f]+ </ { name = $2 } /R_X86_64/ && $3 !~ /^\.text\./ && name != "<square_root>:" { print name, $3 }')
[ -z "$others" ] || fail "$others"
echo "read-only memory: square_root_bits and what it calls: none; square_root: 8 bytes, 7FF8000000000000"
