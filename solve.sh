#!/bin/sh
# Solves a matrix file: sh solve.sh [FILE]. Without FILE it solves examples/two_by_two.lp.
# The answer goes to standard output; progress and errors, in plain words, to standard error. Status 0 means that the
# whole answer is written, also where it is a refusal; everything else has status 2.
set -u

say() {
    printf 'solve.sh: %s\n' "$1" >&2
}

fail() {
    say "$1"
    exit 2
}

# The program's exit status tells of a failed write alone, so the lines themselves tell whether they are all there.
whole() {
    printf '%s\n' "$1" | awk '
        NR == 1 && (/^refused [0-9]+ [0-9]+$/ || /^too large$/) { due = 1; next }
        NR == 1 && /^n [0-9]+ lower [0-9]+ upper [0-9]+ products [0-9]+$/ { due = $2 + 1; next }
        NR > 1 && NF == 3 && $1 == "x" && $2 == NR - 2 && length($3) == 16 && $3 !~ /[^0-9A-F]/ { next }
        { due = 0; exit }
        END { exit !(due > 0 && NR == due) }' >/dev/null
}

root=$(CDPATH='' cd -- "$(dirname -- "$0")" && pwd) || exit 2
file=${1-$root/examples/two_by_two.lp}

[ $# -le 1 ] || fail "one file at a time, please: sh solve.sh FILE"
if [ ! -f "$file" ] || [ ! -r "$file" ]; then
    fail "there is no file '$file' that can be read"
fi
command -v rt >/dev/null 2>&1 || fail "the Rattle toolchain's command rt is not on the path"

out=$root/crates/solve/out
if ! mkdir -p "$out" 2>/dev/null || [ ! -w "$out" ]; then
    fail "nothing can be built: the folder $out cannot be written"
fi
say "proving and building the program (some minutes the first time, seconds afterwards)"
# rt builds the program and runs it, here on no bytes, which it refuses; without a proof rt runs nothing and fails.
if ! log=$(cd -- "$root/crates/solve" && rt run </dev/null 2>&1); then
    say "it could not be proved and built; the end of what rt said:"
    printf '%s\n' "$log" | tail -n 20 >&2
    exit 2
fi
say "solving $file"
if ! answer=$("$out/solve" <"$file") || ! whole "$answer"; then
    fail "the program did not print a whole answer"
fi
# A reader that is gone is a failed write too, not a signal that ends this script without a word.
trap '' PIPE
printf '%s\n' "$answer" 2>/dev/null || fail "the answer could not be written to standard output"
