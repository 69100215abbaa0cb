# What the scripts of the bench have in common; each of them reads this file. It sets here and root, and a folder $work that is gone when the script ends.
LC_ALL=C
export LC_ALL

say() { printf 'bench: %s\n' "$*" >&2; }
die() { say "$*"; exit 2; }

here=$(cd -- "$(dirname -- "$0")" && pwd -P) || exit 2
root=$(dirname -- "$here")
work='' child=''

clean() {
    status=$?
    trap '' HUP INT TERM
    # only the process that this script started
    if [ -n "$child" ]; then kill "$child" 2>/dev/null; fi
    if [ -n "$work" ]; then rm -rf "$work"; fi
    exit "$status"
}
trap clean EXIT
trap 'exit 129' HUP
trap 'exit 130' INT
trap 'exit 143' TERM

# NUMBER UNITS: whether it is one that may be asked for.
look_at() {
    case $1 in '' | 0* | *[!0-9]*) die "'$1' is no number of $2" ;; esac
}

# Looks at the number $rounds, and makes the folder.
start() {
    look_at "$rounds" rounds
    case $(now) in *[!0-9]*) die 'date knows no nanoseconds here' ;; esac
    all_rounds=$(awk -v rounds="$rounds" 'BEGIN { for (i = 1; i <= rounds; i++) print i }')
    mkdir -p "$root/target" || die "cannot make $root/target"
    work=$(mktemp -d "$root/target/bench.XXXXXX") || die "cannot write in $root/target"
}

# TARGET OPTIONS..: builds the Rust package into a folder.
compile() {
    target=$1
    shift
    cargo build --release --quiet -j1 --manifest-path "$here/baseline/Cargo.toml" --target-dir "$target" "$@" ||
        die 'the baseline could not be built'
}

# Builds the baseline, and sets $make_trace, $fast_reader and $one_byte_reader, which is fast_reader built to look at one byte at a time.
build_baseline() {
    say 'building'
    # a folder for each, since cargo keeps one program of a name in a folder
    compile "$here/baseline/target/one_byte" --bin fast_reader --features one_byte
    one_byte_reader=$target/release/fast_reader
    compile "$here/baseline/target"
    fast_reader=$target/release/fast_reader
    make_trace=${MAKE_TRACE:-$target/release/make_trace}
}

# Builds all, and sets $program: the one that the user gave, or this repository's.
build() {
    build_baseline
    if [ -n "${PROGRAM-}" ]; then
        program=$PROGRAM
    else
        program=$work/pickaxle
        build_program
    fi
    [ -x "$program" ] || die "$program is no program"
}

build_program() {
    # a trace without lines is refused, with status 0 all the same
    (cd "$root/crates/pickaxle" && rt run) >"$work/log" 2>&1 </dev/null || {
        tail -n 5 "$work/log" >&2
        die 'the program was not proved'
    }
    (cd "$root" && "$here/native" pickaxle "$program") || die 'the program could not be built for this machine'
}

# ---- a program that is fed

# PROGRAM: starts it; what is written to 3 from then on is its input, and $work/out has what it prints.
feed() {
    mkfifo "$work/pipe" || die 'cannot make a pipe'
    "$1" <"$work/pipe" >"$work/out" &
    child=$!
    exec 3>"$work/pipe"
}

# The peak memory of the program that is fed, in KiB. Its input is open still, so that it can't have ended, unless it has refused.
peak() { awk '$1 == "VmHWM:" { print $2 }' "/proc/$child/status" 2>/dev/null; }

end_feed() {
    exec 3>&-
    wait "$child"
    child=''
    rm "$work/pipe"
}

# ---- time

# Nanoseconds since 1970.
now() { date +%s%N; }

# TIMES TRACE COMMAND..: runs a command on a trace and adds the nanoseconds that it took to the file TIMES.
clock() {
    times=$1 trace=$2
    shift 2
    before=$(now)
    "$@" <"$trace" >"$work/out"
    after=$(now)
    printf '%s\n' $((after - before)) >>"$times"
}

least() { sort -n "$1" | head -n 1; }

# TIMES: the least number of nanoseconds there, without what reading the clock takes.
best() { printf '%s\n' $(($(least "$1") - nothing)); }

# What reading the clock takes.
clock_nothing() {
    for _ in 1 2 3 4 5 6 7 8 9; do clock "$work/nothing" /dev/null :; done
    nothing=$(least "$work/nothing")
}

# ---- traces and answers

# TRACE PROGRAM: the program must accept the trace $work/TRACE.btf and print what both builds of fast_reader print.
compare() {
    "$2" <"$work/$1.btf" >"$work/answer.program"
    for reader in "$fast_reader" "$one_byte_reader"; do
        "$reader" <"$work/$1.btf" >"$work/answer.fast_reader"
        cmp "$work/answer.program" "$work/answer.fast_reader" >&2 || die "$2 and $reader print different answers"
    done
    grep -q '^verdict 0 ' "$work/answer.program" || die 'the trace was refused'
}

# Whether the maker of traces knows short lines. One that came with an older build doesn't.
makes_short_lines() { "$make_trace" --short --lines 1 1 0 5 >/dev/null 2>&1; }

size_of() { wc -c <"$1"; }

# ---- the head of a report

machine() {
    model=$(sed -n 's/^model name[[:space:]]*: //p' /proc/cpuinfo 2>/dev/null | head -n 1)
    if [ -z "$model" ]; then model=$(lscpu 2>/dev/null | sed -n 's/^Model name: *//p' | head -n 1); fi
    read -r load _ 2>/dev/null </proc/loadavg || load=unknown
    printf 'machine: %s, %s, %s processors, load at the start %s\n' \
        "$(uname -m)" "${model:-model unknown}" "$(getconf _NPROCESSORS_ONLN)" "$load"
    printf 'times: best of %s rounds in turn\n' "$rounds"
}
