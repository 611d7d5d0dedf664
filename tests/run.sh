#!/usr/bin/env bash
# Runs the tests outside the proofs: solve.sh as the README calls it, another solver against the library and the
# program, faults planted for that comparison to find, the C header, the Rust crate, the command, every block of the
# documents, the benchmark's own solver, the launchers, and an index of 32 bits. Nothing is left out: what is missing
# counts as failed. Ends with one line 'N passed, M failed'.
set -u
cd "$(dirname "$0")/.." || exit 1

passed=0
failed=0

note() {
    echo "$1: $2"
    failed=$((failed + 1))
}

# Runs a command, shows what it prints, and adds up its closing line.
counted() {
    local name=$1 log line status m
    shift
    log=$(mktemp)
    "$@" >"$log" 2>&1
    status=$?
    cat "$log" >&2
    line=$(grep -aE '^[0-9]+ passed, [0-9]+ failed' "$log" | tail -n 1)
    rm -f "$log"
    if [ -z "$line" ]; then
        note "$name" "no closing line"
        return
    fi
    passed=$((passed + ${line%% passed*}))
    m=${line#*, }
    m=${m%% failed*}
    failed=$((failed + m))
    if [ "$status" -ne 0 ] && [ "$m" -eq 0 ]; then
        note "$name" "ended with status $status"
    fi
}

# Runs a program of checks.
checks() {
    counted "checks $*" sh -c 'cd tests && cargo run --release --offline --quiet "$@"' sh "$@"
}

# Runs a command that passes or fails as a whole.
one() {
    local name=$1 fault=$2
    shift 2
    if "$@" >&2; then
        passed=$((passed + 1))
    else
        note "$name" "$fault"
    fi
}

# Runs the tests of a cargo package, doc tests too, and adds up their closing lines.
package() {
    local name=$1 log status n m
    log=$(mktemp)
    (cd "$name" && cargo test --release --offline) >"$log" 2>&1
    status=$?
    grep -a '^test result' "$log" >&2
    n=$(grep -a '^test result' "$log" | sed -nE 's/.* ([0-9]+) passed; ([0-9]+) failed.*/\1/p' | awk '{ s += $1 } END { print s + 0 }')
    m=$(grep -a '^test result' "$log" | sed -nE 's/.* ([0-9]+) passed; ([0-9]+) failed.*/\2/p' | awk '{ s += $1 } END { print s + 0 }')
    passed=$((passed + n))
    failed=$((failed + m))
    if [ "$n" -eq 0 ] || { [ "$status" -ne 0 ] && [ "$m" -eq 0 ]; }; then
        tail -n 20 "$log" >&2
        note "$name" "ended with status $status, $n tests passed"
    fi
    rm -f "$log"
}

paper_lines() {
    [ "$(sh solve.sh)" = "$(printf '%s\n' 'n 2 lower 1 upper 1 products 1' 'x 0 3FF0000000000000' 'x 1 4000000000000000')" ]
}

# The real program behind solve.sh: a refusal is an answer, an answer that is lost is none.
real_answers() {
    local status
    [ "$(sh solve.sh examples/two_by_two.mtx)" = "refused 16 0" ] || return 1
    sh solve.sh >/dev/full
    status=$?
    [ "$status" -eq 2 ]
}

# The program comes first, since the checks run it. The library is built beside the checks that do not need it; an older
# one must not stand in for one that cannot be built.
rm -f crates/capi/out/libcapi.a
one "solve.sh" "does not print the paper's three lines" paper_lines
one "solve.sh" "a refusal is not printed, or lost output is not told" real_answers
(cd crates/capi && exec rt lib) >&2 &
library=$!

checks --features standin --bin planted
one "bench" "its solver differs from the reference" sh -c 'cd bench && cargo test --release --offline --quiet'
counted "launchers" sh tests/launchers.sh
counted "width" sh tests/width.sh

one "capi" "the static library was not built" wait "$library"
checks --features library
package rust
package command
checks --features library --bin blocks

echo "$passed passed, $failed failed"
[ "$failed" -eq 0 ]
