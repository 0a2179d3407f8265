# Counts what passed and what failed. Sourced by the tests, each of which ends with `finish`.
passed=0
failed=0

# Writes the last line of a test; the exit status is 0 only where nothing failed.
finish() {
    echo "$passed passed, $failed failed"
    [ "$failed" -eq 0 ]
    exit
}

# stop WHY: fails and ends the test.
stop() {
    echo "$(basename "$0"): $1" >&2
    failed=$((failed + 1))
    finish
}

# expect WHAT COMMAND..: the command succeeds.
expect() {
    local what=$1
    shift
    if "$@"; then
        passed=$((passed + 1))
    else
        failed=$((failed + 1))
        echo "$(basename "$0"): not so: $what"
        return 1
    fi
}

# counted FILE STATUS: adds the counts of the last line of what a test wrote, which ended with this status; without such a line it failed.
counted() {
    if [[ $(tail -n 1 "$1") =~ ^([0-9]+)\ passed,\ ([0-9]+)\ failed$ ]]; then
        passed=$((passed + BASH_REMATCH[1]))
        failed=$((failed + BASH_REMATCH[2]))
        [ "$2" -eq 0 ] || [ "${BASH_REMATCH[2]}" -ne 0 ] || failed=$((failed + 1))
    else
        echo "$(basename "$0"): a test ended with status $2 and no count"
        failed=$((failed + 1))
    fi
}

# needs COMMAND WHAT: stops where a command is not there.
needs() { command -v "$1" >/dev/null 2>&1 || stop "$2 is not on the PATH"; }

# is_old FILE: it is not there, or the code has changed since it was built.
is_old() { [ ! -e "$1" ] || [ -n "$(find crates crates.txt -path '*/out' -prune -o -type f -newer "$1" -print -quit)" ]; }

# archive NAME [CRATE]: target/staticlib/libNAME.a, of the static library CRATE (or NAME), proved and built anew where the code has changed.
archive() {
    local crate=${2:-$1} file=target/staticlib/lib$1.a
    is_old "$file" || return 0
    (cd "crates/$crate" && rt lib) >/dev/null || stop "rt lib fails in crates/$crate; run it there to see why"
    mkdir -p target/staticlib
    cp "crates/$crate/out/lib$crate.a" "$file" || stop "no archive crates/$crate/out/lib$crate.a"
}

# program NAME: target/bin/NAME, proved and built anew where the code has changed. `rt ci` leaves a program that it built in its crate's out/, and
# `rt run` builds one and then runs it, here on no input.
program() {
    local made=crates/$1/out/$1 file=target/bin/$1 said
    is_old "$file" || return 0
    if is_old "$made"; then
        said=$(cd "crates/$1" && rt run 2>&1 </dev/null)
        grep -qE '^logic=proved|nothing has changed since the last proved build' <<<"$said" || stop "rt run fails in crates/$1; run it there to see why"
    fi
    mkdir -p target/bin
    cp "$made" "$file" || stop "no program $made"
}
