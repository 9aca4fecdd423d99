# The part of tool.sh that is about files: those that are no books, streams, permissions, locks.

# As somebody who may not write what is not their own: for root that is the user 65534.
as_other() {
    if [ "$(id -u)" = 0 ]; then setpriv --reuid=65534 --regid=65534 --clear-groups "$@"; else "$@"; fi
}

run_as_other() {
    as_other "$tool" "$@" <"$input" >out 2>err
    status=$?
    command="reelbook $*, as another user"
}

try_files() {
    unable 'stat: none: No such file or directory' stat none
    unable 'stat: .: Is a directory' stat .
    unable 'open: .: Is a directory' open . 1
    unable 'stat: /dev/null: not a regular file' stat /dev/null
    printf 'not a book' >other
    unable 'stat: other: not a reel book' stat other
    unable 'open: other: not a reel book' open other 1
    unable 'format: other: exists already; --force overwrites it' format other --reels 4 --nodes 16
    unable 'format: book: exists already; --force overwrites it' format book --reels 4 --nodes 16
    unable 'format: .: exists already; --force overwrites it' format . --reels 4 --nodes 16
    unable 'format: .: Is a directory' format . --reels 4 --nodes 16 --force
    unable 'format: none/book: No such file or directory' format none/book --reels 4 --nodes 16
    holds test "$(cat other)" = 'not a book'
    head -c 20479 book >short
    unable 'check: short: a reel book of the wrong length: cut short, or not copied whole' check short
    unable 'open: short: a reel book of the wrong length: cut short, or not copied whole' open short 1
    (ulimit -f 8 && "$tool" format new --reels 4 --nodes 16 2>err)
    holds grep -q '^reelbook: format: new: ' err
    holds test ! -e new
    (ulimit -f 8 && "$tool" format other --reels 4 --nodes 16 --force 2>err)
    holds grep -q '^reelbook: format: other: ' err
    holds test "$(cat other)" = 'not a book'
    does '' format other --reels 4 --nodes 16 --force
    does "$sound" check other
    chmod a+rx .
    if ! as_other "$tool" --version >/dev/null 2>&1; then
        skip 'files and folders without permission' 'the tool does not run as another user'
        return
    fi
    mkdir closed
    chmod 333 closed # its fsync is left out
    run_as_other format closed/book --reels 1 --nodes 1
    expect 0 '' ''
    chmod 755 closed
    does "$sound" check closed/book
    try_permissions
}

try_streams() {
    if [ -w /dev/full ]; then
        "$tool" list book 7 >/dev/full 2>err
        holds test $? = 4
        holds test "$(cat err)" = 'reelbook: list: standard output: No space left on device'
    else
        skip 'a full disk' '/dev/full is missing'
    fi
    "$tool" add book 7 1 >&- 2>err
    holds test "$(cat err)" = 'reelbook: add: standard output: Bad file descriptor'
    does '1 frame removed' remove book 7 1
    "$tool" add book 7 <&- >out 2>err
    holds test $? = 4
    holds test "$(cat out err)" = 'reelbook: add: standard input: Bad file descriptor; 0 frames added before it'
    "$tool" has book 7 5 <&- >out 2>err
    holds test "$(cat out err)" = yes
}

# Commands that read leave a book alone that was closed cleanly.
try_reading() {
    cp book kept
    chmod a-w book
    does 'yes' has book 7 5
    does "$sound" check book
    for name in 'list book 7' 'stat book' 'draw book'; do
        run $name
        holds test "$status" = 0
    done
    holds cmp -s book kept
    chmod u+w book
}

# One that was not is recovered by whatever opens it; where it may not be written, a copy is, which commands that read go by.
try_permissions() {
    cp book unclean
    poke unclean "$clean_at" 000
    poke unclean "$((node_at + 8))" 000
    cp unclean kept
    chmod a-w book unclean
    run_as_other open book 1
    expect 4 '' 'open: book: Permission denied'
    run_as_other recover unclean
    expect 4 '' 'recover: unclean: Permission denied'
    run_as_other check unclean
    expect 0 'sound; not closed cleanly; locate words that differ: 1' ''
    copied='not closed cleanly; it may not be written, so a copy is recovered and read, locate words mended: 1'
    run_as_other has unclean 7 5
    expect 0 yes "has: unclean: $copied"
    run_as_other has unclean 7 6
    expect 1 no "has: unclean: $copied"
    for name in 'list 7' stat reels dump draw; do
        "$tool" ${name%% *} book ${name#"${name%% *}"} >wanted
        run_as_other ${name%% *} unclean ${name#"${name%% *}"}
        holds test "$(sed 's/unclean/book/' out)" = "$(cat wanted)"
        holds test "$status$(cat err)" = "0reelbook: ${name%% *}: unclean: $copied"
    done
    holds cmp -s unclean kept
    echo old >protected
    chmod a=r protected
    chmod a+rwx .
    run_as_other draw book -o protected
    expect 4 '' 'draw: protected: Permission denied'
    holds test "$(cat protected)" = old
    chmod go-w .
    chmod u+w book unclean
    poke unclean "$image_at" 003
    chmod a-w unclean
    run_as_other stat unclean
    expect 2 '' "stat: unclean: not closed cleanly, and not recovered: the image's edition is neither 1 nor 2 (2)"
}

# A process has the book in use until its standard input, number 3 here, ends.
hold_book() {
    rm -f pipe
    mkfifo pipe
    "$tool" add book 7 - <pipe >interrupted 2>&1 &
    holder=$!
    exec 3>pipe
    tries=0
    while [ "$(od -A n -t u1 -j "$clean_at" -N 1 book)" -eq 1 ]; do # until the book is opened, and so is locked
        tries=$((tries + 1))
        [ "$tries" -lt 300 ] || fail 'the book is never opened'
        sleep 0.1
    done
}

# A command that waits for the book, which a process has in use, ends once that one has: with this exit status and output.
waits() {
    expected=$1
    shift
    "$tool" "$@" --wait </dev/null >waited 2>&1 3>&- &
    waiter=$!
    sleep 0.3
    kill -0 "$waiter" || fail "a process that should wait has ended: $(cat waited)"
    exec 3>&-
    wait "$holder"
    holder=
    wait "$waiter"
    holds test "$?$(cat waited)" = "$expected"
}

try_locks() {
    hold_book
    for name in 'has book 7 5' 'check book' 'open book 1' 'recover book' 'format book --reels 1 --nodes 1 --force'; do
        run $name
        expect 4 '' "${name%% *}: book: in use by another process"
        run $name --wait=0
        expect 4 '' "${name%% *}: book: in use by another process"
    done
    run check book --wait=1
    expect 4 '' 'check: book: in use by another process'
    printf '1 2 3 ' >&3
    kill -INT "$holder"
    exec 3>&-
    wait "$holder"
    holds test $? = 4
    holder=
    added=$(sed -n 's/^reelbook: add: interrupted; \([0-3]\) frames* added$/\1/p' interrupted)
    holds test -n "$added"
    does "$sound" check book
    i=0
    for frame in 1 2 3; do
        i=$((i + 1))
        if [ "$i" -le "$added" ]; then does '1 frame removed' remove book 7 "$frame"; else denies has book 7 "$frame"; fi
    done
    : | "$tool" add book 7 --progress >out 2>err
    holds test "$(cat out err)" = '0 frames added'
}

# Two processes wait, one of them with a limit; meanwhile a copy takes the book's name. Both get the copy, one after the other.
try_waiting() {
    cp book copy
    hold_book
    "$tool" open book 11 --wait </dev/null >first 2>&1 3>&- &
    waiter=$!
    "$tool" open book 12 --wait=$most </dev/null >second 2>&1 3>&- &
    limited=$!
    sleep 0.5
    kill -0 "$waiter" || fail "a process that should wait has ended: $(cat first)"
    kill -0 "$limited" || fail "a process that should wait has ended: $(cat second)"
    mv copy book
    exec 3>&-
    wait "$holder"
    holder=
    wait "$waiter"
    holds test "$?$(cat first)" = 0
    wait "$limited"
    holds test "$?$(cat second)" = 0
    for reel in 11 12; do does '' retire book $reel; done
    misused "open: 'x' is not $range" open book 1 --wait=x
    misused 'open: too many arguments: reelbook open FILE REEL' open book 1 --wait 5
}
