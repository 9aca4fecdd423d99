# The part of tool.sh that is about forms for programs, dumps, and books made from them.

try_forms() {
    does '' format forms --reels 4 --nodes 16
    does '' reels forms
    does '[]' reels forms --json
    does 'reel,frames,nodes' reels forms --csv
    does '' open forms 7
    does '' open forms "$most"
    does '[]' list forms 7 --json
    does 'reel,frame' list forms 7 --csv
    does '2 frames added' add forms 7 12 "$most"
    does "$(printf 'reel 7: 2 frames, 1 node\nreel %s: 0 frames, 1 node' "$most")" reels forms
    does "$(printf '[{"reel":7,"frames":2,"nodes":1},\n{"reel":%s,"frames":0,"nodes":1}]' "$most")" reels forms --json
    does "$(printf 'reel,frames,nodes\n7,2,1\n%s,0,1' "$most")" reels forms --csv
    does "$(printf '[12,\n%s]' "$most")" list forms 7 --json
    does "$(printf 'reel,frame\n7,12\n7,%s' "$most")" list forms 7 --csv
    numbers='"slots":4,"reels":2,"frames":2,"nodes_used":2,"nodes_free":14,"deepest":0,"places":32,"located":2'
    numbers=$numbers',"edition":2,"own_table":0,"longest_path":1,"tidy_frees":0'
    does "{$numbers}" stat forms --json
    does 'slots,reels,frames,nodes_used,nodes_free,deepest,places,located,edition,own_table,longest_path,tidy_frees
4,2,2,2,14,0,32,2,2,0,1,0' stat forms --csv
    root='"nodes":1,"deepest":0,"places":16' path='"longest_path":1,"tidy_frees":0'
    does "{$numbers,
\"by_reel\":[{\"reel\":7,\"slot\":0,\"root\":0,\"frames\":2,$root,\"located\":2,$path},
{\"reel\":$most,\"slot\":1,\"root\":1,\"frames\":0,$root,\"located\":0,$path}]}" \
        stat forms --json --by-reel
    does "reel,slot,root,frames,nodes,deepest,places,located,longest_path,tidy_frees
7,0,0,2,1,0,16,2,1,0
$most,1,1,0,1,0,16,0,1,0" stat forms --csv --by-reel
    misused 'list: --json: not with --csv' list forms 7 --json --csv
    run add forms 7 1 2 --rate
    holds test "$status$(cat out)" = '02 frames added'
    holds grep -Eqx 'reelbook: add: 2 frames in [0-9]+\.[0-9]{3} s, [0-9]+ a second' err
    run remove forms 7 1 3 --rate
    holds test "$status" = 2
    holds grep -Eq '^reelbook: remove: 1 frame in ' err
    holds test "$(tail -n 1 err)" = 'reelbook: remove: reel 7: frame 3: not held (10); 1 frame removed before it'
    does '1 frame removed' remove forms 7 2
    for name in add remove; do
        run help $name
        holds grep -q 'stream of frames is not atomic' out
    done
}

text() { # LINE..: a dump that is whole
    printf '%s\n' 'reel book dump 1' 'reels 4' 'nodes 16' "$@" end
}

# The folder `loads` has what is made, and nothing else.
only() { # NAME..
    holds test "$(echo $(ls -A loads))" = "$*"
}

try_dumps() {
    mkdir loads
    does "$(text 'reel 7' 12 "$most" "reel $most")" dump forms
    for time in first second; do does '' dump forms -o dump; done
    holds test "$(cat dump)" = "$(text 'reel 7' 12 "$most" "reel $most")"
    does '2 reels, 2 frames loaded' load loads/new dump
    does "$(cat dump)" dump loads/new
    does "$sound" check loads/new
    unable 'load: loads/new: exists already; --force overwrites it' load loads/new dump
    chmod 640 loads/new
    ln -s new loads/link
    input=dump
    does '2 reels, 2 frames loaded' load loads/link --force --nodes=20 --reels=100 # to a larger one
    input=/dev/null
    does "$(sed 's/reels 4/reels 100/; s/nodes 16/nodes 20/' dump)" dump loads/new
    holds test "$(ls -l loads/new | cut -c 1-10)" = '-rw-r-----'
    only link new
    "$tool" dump loads/new | "$tool" load loads/new - --force --nodes 30 >out 2>err
    holds test "$(cat out err)" = '2 reels, 2 frames loaded'
    does "$(sed 's/reels 4/reels 100/; s/nodes 16/nodes 30/' dump)" dump loads/new
    rm loads/new loads/link
    printf '# by hand\r\n\n reel book dump 1 \nreels 1\r\n\tnodes  2\nreel 5\r\n\n 3 \n# so far\nend' >dump
    does '1 reel, 1 frame loaded' load loads/new dump
    does "$(printf 'reel book dump 1\nreels 1\nnodes 2\nreel 5\n3\nend')" dump loads/new
    run load loads/rated dump --rate
    holds grep -Eqx 'reelbook: load: 1 frame in [0-9.]+ s, [0-9]+ a second' err
    rm loads/*
    spare_nothing
    refuse_texts
    keep_old
    interrupt_load
    rmdir loads
}

nodes_used() { # BOOK
    "$tool" stat "$1" --csv | awk -F, 'END { print $4 }'
}

# As many nodes as before suffice, in whatever sequence the trees have grown.
spare_nothing() {
    does '' format full --reels 3 --nodes 60
    for reel in 1 2 3; do does '' open full $reel; done
    for part in 1 2 3 4 5 6 7 8; do # of each reel in turn, until the pool is full
        for reel in 1 2 3; do
            awk -v x=$((part * 3 + reel)) 'BEGIN { while (n++ < 200) print x = x * 48271 % 2147483647 }' |
                "$tool" add full $reel --skip-held >out 2>err
        done
    done
    holds grep -q 'not enough adjacent free nodes (8)' err
    "$tool" list full 2 | awk 'NR % 3 == 0' >frames
    input=frames
    does "$(($(wc -l <frames))) frames removed" remove full 2 -
    input=/dev/null
    "$tool" dump full | sort >before
    run dump full -o dump
    for reel in 1 2 3; do
        does "$(awk -v reel=$reel '$1 == "reel" { on = $2 == reel; next } on && $1 != "end"' dump)" list full $reel
    done
    run load loads/again dump
    expect 0 "3 reels, $(grep -c '^[0-9]' dump) frames loaded" ''
    "$tool" dump loads/again | sort >after
    holds cmp -s before after
    does "$sound" check loads/again
    holds test "$(nodes_used loads/again)" -le "$(nodes_used full)"
    rm loads/again
}

loads_not() { # STATUS ERR [OPTION..]: the text in `dump` is refused, and nothing is left
    wanted_status=$1 wanted=$2
    shift 2
    run load loads/new dump "$@"
    expect "$wanted_status" '' "load: $wanted"
    only
}

refuse_texts() {
    numbers="; a number is one from 0 to $most in decimal without leading zeros"
    text 'reel 1' 5 'reel 2' >dump
    loads_not 2 'dump: line 6: reel 2: no empty reel slot (7)' --reels 1
    loads_not 2 'dump: line 6: reel 2: not enough adjacent free nodes (8)' --nodes 1
    loads_not 3 '--nodes: from 1 to 65536' --nodes 0
    loads_not 3 '--crash-after: a book that is loaded has no name before it is whole' --crash-after 1
    text 'reel 1' 5 6 5 >dump
    loads_not 2 'dump: line 7: reel 1: frame 5: held already (9)'
    text 'reel 1' 5 'reel 1' >dump
    loads_not 2 'dump: line 6: reel 1: the reel is open already (6)'
    text 5 >dump
    loads_not 3 "dump: line 4: '5' is not 'reel NUMBER'$numbers"
    neither="a frame's number, 'reel NUMBER' or 'end'$numbers"
    for line in 05 5x -5 reel reel5 'reel 05' 'reel 5 6' '5 6' 18446744073709551616 END; do
        text 'reel 1' "$line" >dump
        loads_not 3 "dump: line 5: '$line' is not $neither"
    done
    text 'reel 1' "$(printf '5\0016')" >dump
    loads_not 3 "dump: line 5: '5?6' is not $neither"
    text 'reel 1' end 5 >dump
    loads_not 3 "dump: line 6: '5' is not the end, which the line before it is$numbers"
    text 'reel 1' 5 >whole
    for lines in 0 1 2 3 4 5; do # cut short
        head -n $lines whole >dump
        loads_not 3 "dump: ends without a line 'end': not a whole dump"
    done
    sed 's/dump 1/dump 2/' whole >dump
    loads_not 3 'dump: not a dump of a reel book: it does not start with reel book dump 1'
    sed 's/reels 4/reels 04/' whole >dump
    loads_not 3 "dump: line 2: 'reels 04' is not 'reels NUMBER'$numbers"
    rm dump
    loads_not 4 'dump: No such file or directory'
    mkdir dump
    loads_not 4 'dump: Is a directory'
    rmdir dump
    mv whole dump
    run load none/new dump
    expect 4 '' 'load: none/new: No such file or directory'
    (ulimit -f 8 && "$tool" load loads/new dump 2>err)
    holds grep -q '^reelbook: load: loads/new: ' err
    only
}

# A book is not replaced while it is in use, nor by one that is not whole; a folder never.
keep_old() {
    cp book loads/old
    text 'reel 1' 5 >whole
    text 'reel 1' 5 5 >dump
    run load loads/old dump --force
    expect 2 '' 'load: dump: line 6: reel 1: frame 5: held already (9)'
    holds cmp -s book loads/old
    run load loads whole --force
    expect 4 '' 'load: loads: Is a directory'
    hold_book
    cp whole dump
    run load book dump --force
    expect 4 '' 'load: book: in use by another process'
    waits '01 reel, 1 frame loaded' load book dump --force
    does "$(cat whole)" dump book
    mv loads/old book
    only
}

# An interrupt, as the text has not ended yet, leaves nothing.
interrupt_load() {
    for signal in TERM HUP; do # a shell's background has no INT
        if (sh -c "kill -$signal \$\$"; exit $?) 2>/dev/null; then
            echo "skipped: load interrupted by $signal, because it is ignored here, as below nohup"
            continue
        fi
        rm -f pipe
        mkfifo pipe
        "$tool" load loads/new <pipe >interrupted 2>&1 &
        holder=$!
        exec 3>pipe
        text 'reel 1' 5 | sed '$d' >&3
        tries=0
        while [ -z "$(ls -A loads)" ]; do
            tries=$((tries + 1))
            [ "$tries" -lt 300 ] || fail 'the book is never begun'
            sleep 0.1
        done
        kill -$signal "$holder"
        wait "$holder" 2>/dev/null
        holds test $? -gt 128
        holder=
        exec 3>&-
        only
    done
}
