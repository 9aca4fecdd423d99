#!/bin/sh
# Tries the tool: its commands, its errors, damaged files, then power failures, each held against a model in plain files.
# tests/tool.sh TOOL SHADOW [SEED [ROUNDS]], SHADOW being what shadow.c is compiled to. A seed gives the same failures each time.
set -u
export LC_ALL=C
here=$(cd "$(dirname "$0")" && pwd)
tool=$(cd "$(dirname "$1")" && pwd)/$(basename "$1")
shadow=$(cd "$(dirname "$2")" && pwd)/$(basename "$2")
seed=${3:-1}
rounds=${4:-400}
parent=${TMPDIR:-/tmp}
[ -n "${TMPDIR-}" ] || [ ! -w /dev/shm ] || parent=/dev/shm
work=$(mktemp -d "$parent/reelbook.XXXXXX") || exit 1
holder=
trap 'if [ -n "$holder" ]; then kill "$holder" 2>/dev/null; fi; rm -rf "$work"' EXIT
trap 'exit 1' HUP INT TERM
cd "$work" || exit 1

checks=0
input=/dev/null
failing=
module=
most=18446744073709551615

fail() {
    printf 'tool.sh: %s\nseed %s, check %s%s\n' "$1" "$seed" "$checks" "${failing:+; the power failed in: $failing}" >&2
    exit 1
}

skip() { # WHAT WHY
    echo "skipped: $1, because $2"
}

run() {
    "$tool" "$@" <"$input" >out 2>err
    status=$?
    command="reelbook $*"
}

# expect STATUS OUT ERR: what the last run gave, whole; ERR without the tool's name.
expect() {
    checks=$((checks + 1))
    [ "$status" = "$1" ] || fail "$command: exit status $status, not $1: $(cat err)"
    [ "$(cat out)" = "$2" ] || fail "$command: standard output: $(cat out)"
    [ "$(cat err)" = "${3:+reelbook: $3}" ] || fail "$command: standard error: $(cat err)"
}

does() { # OUT COMMAND..
    wanted=$1
    shift
    run "$@"
    expect 0 "$wanted" ''
}

denies() { # COMMAND..: has, whose answer is no
    run "$@"
    expect 1 no ''
}

ends_with() { # STATUS ERR COMMAND..: and the book stays as it was, byte for byte
    wanted_status=$1 wanted=$2
    shift 2
    cp -f book kept
    run "$@"
    expect "$wanted_status" '' "$wanted"
    cmp -s book kept || fail "$command: the book has changed"
}

# What add says of a frame that fills its node.
full="fills its node: no clear place is left in it, and the next frame there takes a larger node or one below it, new if need be"

warns() { # REEL FRAME OUT COMMAND..: add, which is done, and says so once
    wanted_warning="add: reel $1: frame $2 $full" wanted=$3
    shift 3
    run "$@"
    expect 0 "$wanted" "$wanted_warning"
}

refuses() { ends_with 2 "$@"; } # by the book
misused() { ends_with 3 "$@"; } # a command line or an input that is none
unable() { ends_with 4 "$@"; }  # a file or the system

holds() { # a test that the command line states
    checks=$((checks + 1))
    "$@" || fail "not so: $*; after $command: $(cat out err)"
}

poke() { # FILE BYTE..: writes bytes, in octal, at an offset
    poked=$1 at=$2
    shift 2
    printf "$(printf '\\%s' "$@")" | dd of="$poked" bs=1 seek="$at" conv=notrunc 2>/dev/null
}

# Where things are in a file with 4 slots and 16 nodes.
clean_at=32
image_at=4096
root_at=$((image_at + 64 * 8 + 8))
node_at=$((image_at + (64 + 2 * 4) * 8))
map_at=16384

sound='sound; closed cleanly; locate words that differ: 0'
range="a number from 0 to $most in decimal without leading zeros"

for part in commands lookups tidy pictures dumps files damage failures editions tables convert module barriers; do
    . "$here/tool-$part.sh"
done

echo "tool: seed $seed, $rounds rounds"
for part in commands pictures help full lookups tidy refusals arguments numbers forms dumps files streams reading locks waiting \
    recovery damage mixtures power_failures editions tables convert module barriers; do
    "try_$part"
done
echo "$checks checks, $failures power failures, $cuts recoveries cut short, $chains pairs of barriers; all as they should be"
