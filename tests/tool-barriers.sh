# The part of tool.sh that is about barriers: a disk that has only what they made lasting, when two processes in a row are killed.

on_shadow() { # FAIL_AT COMMAND..: on the book, with the disk beside it; some pages reach it as the power fails
    fail_at=$1
    shift
    pages=$(((pages * 13 + 7) % 32))
    SHADOW=disk FAIL_AT=$fail_at FAIL_PAGES=$pages LD_PRELOAD=$shadow "$tool" "$@" </dev/null >out 2>err
    status=$?
    command="reelbook $*"
}

# Kills a command in its msync number FAIL_AT. 1 if it ends before: then all of the file has to be lasting. With --module a barrier
# syncs the pages of the lines that were flushed, and no others: a flush left out, of a script's or the driver's own, is missing.
kill_in() { # FAIL_AT KIND [REEL [FRAME]]
    stop=$1 kind=$2
    shift 2
    on_shadow "$stop" "$kind" book "$@" $module
    [ "$status" = 137 ] && return
    holds test "$status" = 0
    holds cmp -s book disk
    false
}

start_from() { # BOOK DISK
    cp "$1" book && cp "$2" disk
}

changed() { # MODEL KIND [REEL [FRAME]]: the model after it
    cp "$1" before
    shift
    model_change "$@"
}

# The power fails: the book is the disk. It holds what one of the models does.
compare_disk() { # MODEL..
    failing="$first; $second"
    chains=$((chains + 1))
    cp disk book
    run check book
    holds grep -Eq '^sound; (not closed cleanly; .*|closed cleanly; locate words that differ: 0)$' out
    dump
    checks=$((checks + 1))
    for possible in "$@"; do cmp -s dumped "$possible" && return; done
    fail "the disk is none of: $*: $(diff "$1" dumped)"
}

# The second command is killed in each of its barriers, after the first was killed in one of its.
kill_second() { # MODEL..: what may be held after the first
    cp book book.first
    cp disk disk.first
    for second in 'open 4' 'add 1 64' 'recover'; do
        either=
        for model in "$@"; do
            changed "$model" $second >"$model.second"
            either="$either $model.second"
        done
        fail_second=1
        while start_from book.first disk.first && kill_in "$fail_second" $second; do
            compare_disk "$@" $either
            fail_second=$((fail_second + 1))
        done
        compare_disk $either
    done
}

# Killed in any barrier, load leaves no book; at the end all of it is lasting.
kill_load() {
    "$tool" dump base -o dump || fail 'no dump'
    fail_first=1
    while rm -f new disk && on_shadow "$fail_first" load new dump $module && [ "$status" = 137 ]; do
        holds test ! -e new
        rm -f .reelbook-*
        fail_first=$((fail_first + 1))
    done
    holds test "$status" = 0
    holds cmp -s new disk
    holds test "$fail_first" -gt 4
}

kill_pairs() {
    rm -f book disk
    on_shadow 0 format book --reels 4 --nodes 16 $module
    if [ ! -e disk ]; then
        skip 'barriers by msync' 'LD_PRELOAD does not work'
        return
    fi
    holds test "$status" = 0
    holds cmp -s book disk
    # The second reel's children are empty, nodes 2 and 3: once they are given back, a frame of the first reel takes them.
    for thing in 'open 1' 'open 2' "add 1 $(seq -s ' ' 0 63)" "add 2 $(seq -s ' ' 5 69)" "remove 2 $(seq -s ' ' 7 69)"; do
        kill_in 0 ${thing%% *} ${thing#* }
    done
    dump
    cp dumped none
    cp book base
    kill_load
    for first in 'add 1 99' 'add 2 7' 'remove 1 5' 'open 3' 'retire 2' 'tidy 2' 'recover'; do
        changed none $first >first
        fail_first=1
        while start_from base base && kill_in "$fail_first" $first; do
            kill_second none first
            fail_first=$((fail_first + 1))
        done
        kill_second first
    done
    holds test "$chains" -gt 100 # killed in barriers, and not only ended
}

try_barriers() {
    pages=0 failing= all=0
    skip 'barriers by cache line flushes' 'no failure of persistent memory can be tried'
    for module in '' --module; do
        chains=0
        kill_pairs
        all=$((all + chains))
    done
    chains=$all
}
