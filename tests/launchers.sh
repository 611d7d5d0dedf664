#!/bin/sh
# Tests of solve.sh and of the launcher lilac, with stand-ins for rt, cargo and what they build: what is said, which
# status there is, and that no output is lost silently. Ends with one line 'N passed, M failed'.
set -u
cd "$(dirname "$0")/.." || exit 1

passed=0
failed=0
# Blanks in the path, which every word of the scripts has to stand.
place=$(mktemp -d)/"a place with blanks" || exit 1
house=$place/house
mkdir -p "$place/stubs" "$place/elsewhere" "$house/crates/solve/out" "$house/examples" || exit 1
trap 'rm -rf "${place%/*}"' EXIT
cp solve.sh lilac "$house" && cp examples/* "$house/examples" || exit 1
mkdir -p "$house/command/src" "$house/rust/src" "$house/include" || exit 1
touch "$house/command/Cargo.toml" "$house/rust/Cargo.toml" "$house/rust/build.rs" "$house/include/lilacpliers.h" || exit 1

# A program made of the lines on standard input.
stub() {
    mkdir -p "$(dirname "$1")"
    { echo '#!/bin/sh'; cat; } >"$1"
    chmod +x "$1"
}

# expect NAME STATUS WORDS COMMAND ..: the command's status, and words that standard error has in it.
expect() {
    name=$1 status=$2 words=$3
    shift 3
    PATH=$place/stubs:$PATH "$@" >"$place/out" 2>"$place/err"
    found=$?
    case $(cat "$place/err") in
    *"$words"*) said=yes ;;
    *) said=no ;;
    esac
    if [ "$found" -eq "$status" ] && [ "$said" = yes ]; then
        passed=$((passed + 1))
    else
        failed=$((failed + 1))
        echo "$name: status $found, standard error:"
        cat "$place/err"
    fi
}

# What the last command printed.
printed() {
    if [ "$(cat "$place/out")" = "$2" ]; then
        passed=$((passed + 1))
    else
        failed=$((failed + 1))
        echo "$1: printed $(cat "$place/out")"
    fi
}

program() {
    { echo 'cat >/dev/null'; echo "printf '$1'"; } | stub "$house/crates/solve/out/solve"
}

solve_sh() {
    stub "$place/stubs/rt" <<'END'
[ "$*" = run ] && [ "${PWD##*/}" = solve ]
END
    two='n 2 lower 1 upper 1 products 1\nx 0 3FF0000000000000\nx 1 4000000000000000\n'
    lost="could not be written to standard output"
    program "$two"
    expect "a good run" 0 "solving" sh "$house/solve.sh"
    printed "a good run" "$(printf '%b' "$two")"
    expect "a full device" 2 "$lost" sh -c 'sh "$0" >/dev/full' "$house/solve.sh"
    expect "a closed output" 2 "$lost" sh -c 'sh "$0" >&-' "$house/solve.sh"
    expect "an output to read" 2 "$lost" sh -c 'sh "$0" 1</dev/null' "$house/solve.sh"
    expect "a reader that is gone" 0 "$lost" sh -c '{ sleep 1; sh "$0"; } | :' "$house/solve.sh"
    expect "two files" 2 "one file at a time" sh "$house/solve.sh" a b
    expect "a missing file" 2 "no file 'not there'" sh "$house/solve.sh" "not there"
    expect "an empty name" 2 "no file ''" sh "$house/solve.sh" ""
    expect "a folder" 2 "that can be read" sh "$house/solve.sh" "$house"
    program 'refused 17 0\n'
    expect "a refusal" 0 "solving" sh "$house/solve.sh" "$house/examples/two_by_two.mtx"
    printed "a refusal" "refused 17 0"
    program 'too large\n'
    expect "too large" 0 "solving" sh "$house/solve.sh"
}

cut_answers() {
    for text in '' 'n 2 lower 1 upper 1 products 1\n' 'refused 17\n' 'too large\ntoo large\n' 'n 0 lower\n' \
        'n 1 lower 0 upper 0 products 0\nx 0 3FF000000000000\n' 'n 1 lower 0 upper 0 products 0\nx 1 3FF0000000000000\n' \
        'n 1 lower 0 upper 0 products 0\nx 0 3FF0000000000000\nx 1 3FF0000000000000\n'; do
        program "$text"
        expect "cut: $text" 2 "did not print a whole answer" sh "$house/solve.sh"
        printed "cut: $text" ""
    done
    echo 'kill -9 $$' | stub "$house/crates/solve/out/solve"
    expect "a program that is killed" 2 "did not print a whole answer" sh "$house/solve.sh"
    stub "$place/stubs/rt" <<'END'
echo "a proof is missing"
exit 1
END
    expect "a failed proof" 2 "a proof is missing" sh "$house/solve.sh"
}

# Stand-ins that build what the launcher asks for: a library, and a command that shows its words.
builders() {
    stub "$place/stubs/rt" <<'END'
[ "$*" = lib ] && [ "${PWD##*/}" = capi ] && : >out/libcapi.a
END
    stub "$place/stubs/cargo" <<'END'
mkdir -p target/release && printf '#!/bin/sh\nprintf "<%%s>" "$@"\n' >target/release/lilac && chmod +x target/release/lilac
END
}

launcher() {
    builders
    expect "from nothing" 0 "building the library" "$house/lilac" solve "a b"
    printed "from nothing" "<solve><a b>"
    expect "built before" 0 "" "$house/lilac" x
    cp "$place/err" "$place/out"
    printed "built before says nothing" ""
    ln -s "$house/lilac" "$place/elsewhere/first" && ln -s first "$place/elsewhere/second"
    expect "through links" 0 "" "$place/elsewhere/second" y
    printed "through links" "<y>"
    expect "from another folder" 0 "" sh -c 'cd "$1" && ../house/lilac z' sh "$place/elsewhere"
    printed "from another folder" "<z>"
    touch -t 209901010000 "$house/rust/src"
    expect "an older command" 0 "building the command" "$house/lilac" z
}

failing_builds() {
    rm -rf "$house/command/target"
    stub "$place/stubs/cargo" <<'END'
echo "error: the disk is full" >&2
exit 101
END
    expect "cargo fails" 2 "error: the disk is full" "$house/lilac" x
    expect "cargo fails: what failed" 2 "this failed: cargo build" "$house/lilac" x
    rm -rf "$house/crates/capi/out"
    stub "$place/stubs/rt" <<'END'
echo "a proof is missing"
exit 1
END
    expect "rt fails" 2 "a proof is missing" "$house/lilac" x
    expect "rt fails: what failed" 2 "this failed: rt lib" "$house/lilac" x
}

# A file in the place of a folder cannot be written by anybody.
no_room() {
    builders
    rm -rf "$house/crates/capi/out" "$house/crates/solve/out" "$house/command/target"
    : >"$house/crates/capi/out" && : >"$house/crates/solve/out"
    expect "no room for the library" 2 "house/crates/capi/out cannot be written" "$house/lilac" x
    expect "no room for the program" 2 "house/crates/solve/out cannot be written" sh "$house/solve.sh"
    rm "$house/crates/capi/out" "$house/crates/solve/out"
    : >"$house/command/target"
    expect "no room for the command" 2 "command/target cannot be written" "$house/lilac" x
    rm -r "$house/command/target" "$house/crates/capi/out"
}

# Only what the scripts themselves need is on the path.
missing_tools() {
    mkdir "$place/few"
    for tool in sh dirname find tail readlink mkdir; do
        ln -s "$(command -v $tool)" "$place/few/$tool"
    done
    expect "no rt" 2 "rt is not on the path" env PATH="$place/few" sh "$house/lilac" x
    expect "no rt for solve.sh" 2 "rt is not on the path" env PATH="$place/few" sh "$house/solve.sh"
    mkdir -p "$house/crates/capi/out" && : >"$house/crates/capi/out/libcapi.a"
    expect "no cargo" 2 "cargo is not on the path" env PATH="$place/few" sh "$house/lilac" x
}

solve_sh
cut_answers
launcher
failing_builds
no_room
missing_tools

echo "$passed passed, $failed failed"
[ "$failed" -eq 0 ]
