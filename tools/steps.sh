# What ./sample, ./test and ./install share: steps that say about how long they take and how long they took, and one log for
# what they print. Sourced by bash from the top of the tree.
# shellcheck shell=bash

shown='' # see step
made_with='rattle-kit-13f logic dac8208d650f15bf' # what `rt version` printed where this tree was made

# Seconds that each crate's proof takes from nothing on four idle processors. Of a crate that is not listed no time is said.
declare -A seconds_of=(
    [refusal]=8 [placement]=15 [demand_list]=10 [disk_entries]=8 [planner]=30 [plan_terminal]=13 [plan_text]=6 [well_formed]=14 [writer]=29
    [reader]=38 [plan_after]=22 [transfer_schedule]=7 [transfers]=42 [plan_output]=15 [jugfjord]=27 [jugfjord_c]=25 [plan]=41
)

# Says what a command is, and where it is expected.
expected_where() {
    case $1 in
        rt) echo "the Rattle toolchain's command, expected on PATH; 'rt version' was '$made_with' where this tree was made" ;;
        cargo) echo "Rust's build command, expected on PATH; rustup puts it into ~/.cargo/bin" ;;
        cc) echo "the C compiler, expected on PATH" ;;
        c++) echo "the C++ compiler, expected on PATH" ;;
        *) echo "expected on PATH" ;;
    esac
}

# Stops, with a line for each that is missing, unless all these commands are there.
need() {
    local name missing=0
    for name; do
        command -v "$name" >/dev/null && continue
        echo "$name is missing: $(expected_where "$name")" >&2
        missing=1
    done
    [[ $missing -eq 0 ]] || exit 1
}

# Says so where the toolchain is not the one that this tree was made with.
note_version() {
    local found
    found=$(rt version)
    [[ $found == "$made_with" ]] || echo "Note: 'rt version' is '$found'; it was '$made_with' where this tree was made."
}

# Opens the log of this run, which stands in target/ at the end.
open_log() {
    kept_log=$PWD/target/$1.log
    log=$(mktemp -t "jugfjord-$1.XXXXXX")
    trap 'mkdir -p target && mv "$log" "$kept_log"' EXIT
    echo "Log: $log; at the end $kept_log."
    echo "Times are for four idle processors."
    note_version
}

# A number of seconds in words.
duration() {
    if [[ $1 -lt 120 ]]; then
        echo "$1 s"
    else
        echo "$(($1 / 60)) min$([[ $(($1 % 60)) -eq 0 ]] || echo " $(($1 % 60)) s")"
    fi
}

# Ends the run because of a step: the last lines that it put into the log from byte $3 on, then where the log is.
stop() {
    echo " FAILED with status $2. Its last lines:"
    tail -c "+$3" "$log" | tail -n 25 | cut -c -300
    echo "FAILED: $1. Log: $kept_log"
    exit "$2"
}

# Runs a step: says what it does and about how long it takes (0: not known), sends what it prints to the log, says how long it
# took. Lines that the sed script `shown` prints are shown as they come.
#   [shown=SCRIPT] step SECONDS WORDS COMMAND...
step() {
    local seconds=$1 words=$2 about='' from began=$SECONDS status
    shift 2
    [[ $seconds -eq 0 ]] || about=", about $(duration "$seconds")"
    printf '%s%s ...%s' "$words" "$about" "${shown:+$'\n'}"
    printf '\n== %s\n' "$words" >>"$log"
    from=$(($(wc -c <"$log") + 1))
    set +e
    (set -e; "$@") </dev/null 2>&1 | tee -a "$log" | sed -un "$shown"
    status=${PIPESTATUS[0]}
    set -e
    [[ $status -eq 0 ]] || stop "$words" "$status" "$from"
    echo " done, $(duration $((SECONDS - began)))"
}

# Prints the named crates and what they depend on, lowest first.
order() {
    awk -v wanted="$*" '
        function visit(name,    names, count, i) { # not a library of the toolchain, and none twice
            if (!(name in needs) || name in seen) return
            seen[name] = 1
            count = split(needs[name], names, " ")
            for (i = 1; i <= count; i++) visit(names[i])
            print name
        }
        { sub(/#.*/, "") }
        split($0, half, ":") == 2 {
            split(half[1], words, " ")
            needs[words[1]] = half[2]
        }
        END {
            number = split(wanted, asked, " ")
            for (at = 1; at <= number; at++) visit(asked[at])
        }' crates.txt
}

# Runs a command in a crate's folder.
in_crate() {
    (cd "crates/$1" && "${@:2}")
}

# Proves a crate and builds it: a library for the crates above, NAME_c as target/staticlib/libNAME.a, a program as
# target/bin/NAME. A program is run as well, on an empty input. What is for other machines is built for every x86-64.
build_one() {
    if [[ -e crates/$1/src/main.rt ]]; then
        in_crate "$1" rt run --cpu=x86-64
        install -D -m 755 "crates/$1/out/$1" "target/bin/$1"
    elif grep -q "^$1 staticlib" crates.txt; then
        in_crate "$1" rt lib --cpu=x86-64
        install -D -m 644 "crates/$1/out/lib$1.a" "target/staticlib/lib${1%_c}.a"
    else
        in_crate "$1" rt lib
    fi
}

# Proves and builds the named crates and what they depend on, step by step.
prove() {
    local name
    echo 'A library that is proved already, and has not changed, takes no time.'
    while read -r name; do
        step "${seconds_of[$name]:-0}" "proving $name" build_one "$name"
    done < <(order "$@")
}

# Runs cargo on rust/ with the C library that was built: no download, optimised.
with_cargo() {
    JUGFJORD_ARCHIVE=$PWD/target/staticlib/libjugfjord.a JUGFJORD_PLAN=$PWD/target/bin/plan CARGO_TARGET_DIR=$PWD/rust/target \
        cargo "$1" --offline --release --manifest-path rust/Cargo.toml "${@:2}"
}

# Prints the list of installed files without its comment: mode, place below PREFIX, place in this tree.
files() {
    grep -v '^#' tools/installed.txt
}
