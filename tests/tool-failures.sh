# The part of tool.sh that is about power failures.

# The model of a book: a file with a line for each reel, "REEL", and one for each of its frames, "REEL FRAME".

dump() { # the book in the model's form, recovered if it needs to be
    "$tool" dump book >text 2>err || fail "$command: dump: $(cat err)"
    awk 'NR > 3 && $1 == "reel" { print reel = $2 } NR > 3 && NF == 1 && $1 != "end" { print reel, $1 }' text | sort >dumped
}

# A store that no barrier has passed is lost or kept, by the seed; the same seed gives the same.

differing() { # how many locate words differ in a book that was not closed cleanly
    run check "$1"
    sed -n 's/^sound; not closed cleanly; locate words that differ: \([01]\)$/\1/p' out
}

# The power fails in a command, from the same book with twenty seeds; `outcomes` has what differs then.
fail_often() { # BOOK COMMAND..
    from=$1
    shift
    outcomes=
    for chance in 1 2 3 4 5 6 7 8 9 10 11 12 13 14 15 16 17 18 19 20; do
        cp "$from" book
        run "$@" --seed "$chance"
        holds test "$status" = 0
        holds grep -Eq "crashed after [0-9]+ entr(y|ies), seed $chance\$" err
        outcomes=$outcomes$(differing book)
        case $outcomes in *1) cp book differs ;; esac
    done
}

mixed() {
    case $outcomes in
    *0*1*0* | *1*0*1*) true ;;
    *) false ;;
    esac
}

try_mixtures() {
    cp book good
    fail_often good add book 7 99 --crash-after 0
    holds test "$outcomes" = 00000000000000000000
    fail_often good add book 7 99 --crash-after 2
    holds test "$outcomes" = 11111111111111111111
    fail_often good add book 7 99 --crash-after 1
    holds mixed
    before=$outcomes
    fail_often good add book 7 99 --crash-after 1
    holds test "$outcomes" = "$before"
    fail_often differs recover book --crash-after 0
    holds test "$outcomes" = 11111111111111111111
    fail_often differs open book 9 --crash-after 1
    holds mixed
    fail_often differs recover book --crash-after 2
    holds test "$outcomes" = 00000000000000000000
    fail_often differs open book 9 --crash-after 11
    dump
    holds grep -qx 9 dumped
    cp differs book
    run open book 9 --crash-after 12
    expect 0 '' "open: book: not closed cleanly; recovered, locate words mended: 1
reelbook: open: ended before the power failure, after 11 entries"
    does "$sound" check book
    cp good book
    run add book 7 99 --crash-after 1
    chance=$(sed -n 's/^reelbook: add: crashed after 1 entry, seed //p' err)
    cp book once
    cp good book
    run add book 7 99 --crash-after 1 --seed "$chance"
    holds cmp -s book once
}

# Power failures in random commands.

# What each round does, to which reel; where the power fails, as a part of its entries, from 1 on after all; a seed; how many
# recoveries are cut short after it; frames, or, to remove some, numbers to choose them by. The numbers are drawn here, since
# every awk has a rand() of its own.
plan() {
    awk -v seed="$seed" -v rounds="$rounds" '
        function part() { return (state = state * 16807 % 2147483647) / 2147483647 }
        function below(n) { return int(part() * n) }
        BEGIN {
            state = 1 + seed % 2147483646
            split("add add add add add add add add add add remove remove remove open open open open retire tidy recover", kinds)
            for (round = 0; round < rounds; round++) {
                kind = kinds[1 + below(20)]
                printf "%s %d %f %d %d", kind, 1 + int(below(21) / 5), part() * 1.4, below(2147483647), below(3)
                for (frames = 1 + below(3); frames > 0; frames--)
                    printf " %d", below(2) ? 32 + below(160) : 64 * below(100)
                print ""
            }
        }'
}

held_frame() { # REEL NUMBER: one of the frames that the model has
    awk -v reel="$1" -v number="$2" '
        $1 == reel && NF == 2 { frame[count++] = $2 }
        END { print count ? frame[number % count] : number }' model
}

model_refusal() { # KIND REEL FRAME: the refusal that the model gives, if any
    if [ "$1" = recover ]; then
        return
    elif grep -qx "$2" before; then
        case $1 in
        open) echo 6 ;;
        add) if grep -qx "$2 $3" before; then echo 9; fi ;;
        remove) if ! grep -qx "$2 $3" before; then echo 10; fi ;;
        esac
    elif [ "$1" != open ]; then
        echo 5
    elif [ "$(grep -cv ' ' before)" = 4 ]; then
        echo 7
    fi
}

model_change() { # KIND REEL FRAME: the model after it
    case $1 in
    open) { cat before && echo "$2"; } | sort ;;
    add) { cat before && echo "$2 $3"; } | sort ;;
    remove) grep -vx "$2 $3" before ;;
    retire) grep -Ev "^$2( |\$)" before ;;
    tidy | recover) cat before ;;
    esac
}

# Does one thing to a copy of the book, whole. Its entries are added to `passed`. 1 if it is refused, as the model has it, or for
# want of nodes.
probe() { # KIND [REEL [FRAME]]
    run "$1" copy ${2+"$2"} ${3+"$3"} --crash-after "$most" $module
    number=$(sed -n 's/^reelbook: .* (\([0-9]*\)).*/\1/p' err)
    wanted=$(model_refusal "$1" "${2-}" "${3-}")
    [ "$number" != 8 ] || wanted=${wanted:-8}
    holds test "$number" = "$wanted"
    [ -n "$number" ] || holds test "$status" = 0
    passed=$((passed + $(sed -n 's/.*: ended before the power failure, after \([0-9]*\) entr[a-z]*$/\1/p' err)))
    [ "$status" = 0 ]
}

# Does all of a round to the copy, thing by thing: model.N is the model after N of them, `ends` how many entries they take.
rehearse() { # KIND REEL FRAME..
    cp book copy
    cp model model.0
    things=0 passed=0 ends=0
    kind=$1 reel=$2
    shift 2
    for frame in ${*:-none}; do
        cp model.$things before
        case $kind in
        recover) probe recover ;;
        open | retire | tidy) probe "$kind" "$reel" ;;
        *) probe "$kind" "$reel" "$frame" ;;
        esac || break
        things=$((things + 1)) ends="$ends $passed"
        model_change "$kind" "$reel" "$frame" >model.$things
    done
}

# After so many entries the book is as after those things that were ended, or, within one, as before it or after it.
compare() { # ENTRIES
    done=-1 within=0
    for end in $ends; do
        if [ "$end" -le "$1" ]; then done=$((done + 1)) within=$(($1 - end)); fi
    done
    dump
    checks=$((checks + 1))
    if cmp -s dumped model.$done; then
        cp model.$done model
    elif [ "$within" -gt 0 ] && cmp -s dumped model.$((done + 1)); then
        cp model.$((done + 1)) model
        kept=$((kept + 1))
    else
        fail "the book is neither as before nor as after:
$(diff model.$done dumped)"
    fi
}

stock() { # REEL KIND: frames up to where a root becomes larger or branches out
    case $2 in 0) last=14 ;; 1) last=30 ;; *) last=62 ;; esac
    seq 0 $last >frames
    input=frames
    if [ $last = 14 ]; then
        does '15 frames added' add book "$1"
    else
        warns "$1" 15 "$((last + 1)) frames added" add book "$1"
    fi
    input=/dev/null
    { cat model && sed "s/^/$1 /" frames; } | sort >stocked
    mv stocked model
}

cut_recovery() { # SEED
    run recover book --crash-after $(($1 % 4)) --seed "$1" $module
    holds test "$status" = 0
    if grep -q crashed err; then cuts=$((cuts + 1)); fi
    run check book
    holds grep -q '^sound; ' out
}

# Every second one on a module with line flushes.
round() { # KIND REEL PART SEED RECOVERIES FRAME..
    kind=$1 reel=$2 part=$3 chance=$4 recoveries=$5
    module=$([ $((chance / 8 % 2)) = 0 ] || echo --module)
    shift 5
    if [ "$kind" = open ] || [ $((chance % 4)) = 0 ] || grep -qx "$reel" model; then
        : # the reel that was planned; else the lowest one that is open
    else
        reel=$(grep -v ' ' model | head -n 1)
        reel=${reel:-1}
    fi
    case $kind in
    remove) set -- $(for number in "$@"; do held_frame "$reel" "$number"; done) ;;
    open | retire | tidy | recover) set -- ;;
    esac
    rehearse "$kind" "$reel" "$@"
    [ "$passed" -gt 0 ] || return # refused, or nothing to tidy
    entries=$(awk -v part="$part" -v all="$passed" 'BEGIN { print part < 1 ? int(part * (all + 1)) : all }')
    if [ "$kind" = recover ]; then reel=; fi
    run "$kind" book $reel "$@" --crash-after "$entries" --seed "$chance" $module
    failing=$command
    case $entries in 1) word=entry ;; *) word=entries ;; esac
    if [ "$kind" = add ] && grep -q " $full\$" err; then # of a frame before the one that the power failed in
        sed 1d err >rest
        mv rest err
    fi
    expect 0 '' "$kind: crashed after $entries $word, seed $chance"
    failures=$((failures + 1))
    run check book
    holds grep -q '^sound; not closed cleanly; ' out
    while [ "$recoveries" -gt 0 ]; do
        cut_recovery $((chance / 3 + recoveries))
        recoveries=$((recoveries - 1))
    done
    compare "$entries"
    does "$sound" check book
    if [ "$kind" = open ] && grep -qx "$reel" model; then stock "$reel" $((chance % 5)); fi
}

# Three reels, each with frames up to where its root becomes larger or branches out.
stock_three() {
    : >model
    for reel in 1 2 3; do
        does '' open book $reel
        echo $reel >>model
        stock $reel $((reel - 1))
    done
}

try_power_failures() {
    failures=0 kept=0 cuts=0
    does '' format book --reels 4 --nodes 13 --force
    stock_three
    plan >rounds
    while read -r line <&4; do round $line; done 4<rounds
    if [ "$rounds" -lt 100 ]; then
        skip 'how many power failures of each kind there were' "$rounds rounds are too few for all kinds to come"
        return
    fi
    holds test "$failures" -gt "$((rounds / 3))"
    holds test "$kept" -gt 0
    holds test "$cuts" -gt 0
}
