#!/bin/sh
# Tries an index of 32 bits: nine lines of a copy of the crates widen it, as docs/DECISIONS.md says. The programs over them, and one that names
# every crate below the C interface, are compiled without a proof and run; they print what they print over 16 bits. Ends with one line
# 'N passed, M failed'.
set -u

root=$(CDPATH='' cd -- "$(dirname -- "$0")/.." && pwd) || exit 1
copy=$(mktemp -d) || exit 1
trap 'rm -rf "$copy"' EXIT
passed=0
failed=0

check() {
    if [ "$2" = "$3" ]; then
        passed=$((passed + 1))
    else
        printf 'width: %s: %s in place of %s\n' "$1" "$3" "$2"
        failed=$((failed + 1))
    fi
}

# Puts one line in the place of another.
widen() {
    sed -i "s/^$2\$/$3/" "$copy/crates/$1"
}

(cd "$root" && tar --exclude=out --exclude=must-fail -cf - crates crates.txt) | (cd "$copy" && tar -xf -)
widen base/src/lib.rt 'pub type Index = u16;' 'pub type Index = u32;'
widen base/specs/Index.antt 'index_bound = 65536' 'index_bound = 4294967296'
widen base/specs/Index.antt 'index_bytes = 2' 'index_bytes = 4'
widen base/specs/Limits.antt 'max_slots = 1048576' 'max_slots = 16777216'
widen base/specs/Limits.antt 'max_entries = 65536' 'max_entries = 1048576'
widen base/specs/Limits.antt 'max_rows = 4096' 'max_rows = 65536'
widen matrix/src/lib.rt '    pub const MAX_SLOTS: usize = 1048576;' '    pub const MAX_SLOTS: usize = 16777216;'
widen matrix/src/lib.rt '    pub const MAX_ENTRIES: usize = 65536;' '    pub const MAX_ENTRIES: usize = 1048576;'
widen matrix/src/lib.rt '    pub const MAX_ROWS: usize = 4096;' '    pub const MAX_ROWS: usize = 65536;'
check "lines that differ" 9 "$(diff -r --exclude=out --exclude=must-fail "$root/crates" "$copy/crates" | grep -c '^>')"

# A program over all that the C interface stands on.
mkdir -p "$copy/crates/all/src"
sed -n 's/^capi staticlib:/all:/p' "$root/crates.txt" >>"$copy/crates.txt"
cat >"$copy/crates/all/src/main.rt" <<'END'
#![tactic(auto)]

use std::io;

fn main(rt: HostRuntime) -> io::Result<()> {
    println!(rt; "all")
}
END
said=$(cd "$copy/crates/all" && rt try </dev/null 2>"$copy/errors") || said="$said (status $?)"
check "what a program over every crate prints" all "$said"
grep -a 'error\[' "$copy/errors" | head -n 5

for program in solve file_round; do
    said=$(cd "$copy/crates/$program" && { [ -f stdin ] && exec <stdin || exec </dev/null; } && rt try 2>"$copy/errors") || said="$said (status $?)"
    check "what $program prints" "$(cat "$root/crates/$program/stdout")" "$said"
    grep -a 'error\[' "$copy/errors" | head -n 5
done

echo "$passed passed, $failed failed"
[ "$failed" -eq 0 ]
