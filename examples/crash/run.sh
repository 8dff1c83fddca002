#!/bin/sh
# Kills xcache_replay in the middle of its work, again and again over one cache folder, and looks each time whether the data has
# what the cinfo files claim. A kill takes what the program has in memory and leaves what it gave to the system: this tests the order
# of its calls, and that it starts again from whatever stands there, but not what a power failure takes.
#     run.sh [rounds] [seed]      100 rounds and the seed 1 without words
# The programs are those of bin/ at the top, or of the folder that XCACHE_BIN names. Exits with 1 where something is wrong, and then
# says which folder has all that belongs to it; and where nothing was claimed or killed, as it then shows nothing.
set -eu
export LC_ALL=C
top=$(cd "$(dirname "$0")/../.." && pwd)
programs=${XCACHE_BIN:-$top/bin}
rounds=${1:-100}
seed=${2:-1}
case "$rounds $seed" in
    *[!0-9\ ]* | 0?* | *\ 0?*) echo "usage: run.sh [rounds] [seed]" >&2; exit 1 ;;
esac
for program in xcache_replay xrdpfc_print; do
    [ -x "$programs/$program" ] || { echo "$programs/$program isn't there: make bin builds it" >&2; exit 1; }
done

# The origin has a file of each size, none of which is a multiple of the block's.
sizes='100003 300007 524309 1000003 2097169 3145739'
block=4096

killed=0 ended=0 failed=0 cinfos=0 damaged=0 claims=0 compared=0 wrong=0 hits=0 replies=0
duration=100000
state=$((seed % 2147483646 + 1))
running=
place=$(mktemp -d)

# Takes the folder away, unless it shows a mistake.
leave() {
    [ -z "$running" ] || kill -9 "$running"
    if [ -d "$place/kept" ]; then
        echo "kept: $place"
    else
        rm -rf "$place"
    fi
}
trap leave EXIT
trap 'exit 130' INT TERM

# Draws a number below $1 into `drawn`. All that is random follows from the seed, but the moment of a kill also from how long a run
# takes here.
draw() {
    state=$((state * 48271 % 2147483647))
    drawn=$((state % $1))
}

path_of() {
    echo "/run$1/events.root"
}

# base64 takes any digits, and makes bytes of all kinds of them.
make_origin() {
    number=0
    for size in $sizes; do
        number=$((number + 1))
        mkdir -p "$place/origin/run$number"
        draw 2147483646
        awk -v state="$((drawn + 1))" -v size="$size" 'BEGIN {
            for (made = 0; made < size; made += 6) {
                state = state * 48271 % 2147483647
                printf "%08x", state
            }
        }' | base64 -d | head -c "$size" > "$place/origin$(path_of $number)"
    done
}

# A schedule of four clients that read from all files, with writers and the sync in between, so that blocks wait to be written and
# cinfo files are put all through the run. The sync is at one file until it comes to rest there: before it goes to another it gets
# steps enough for that.
make_schedule() {
    draw 2147483646
    awk -v state="$((drawn + 1))" -v sizes="$sizes" 'BEGIN {
        files = split(sizes, size, " ")
        for (client = 1; client <= 4; client++) {
            for (file = 1; file <= files; file++) print "ask", client, "open", file, path_of(file)
            print "go", client, 5 * files
        }
        synced = 1 + draw(files)
        for (turn = 1; turn <= 600; turn++) {
            client = 1 + draw(4)
            file = 1 + draw(files)
            print "ask", client, "read", file, draw(size[file]), 1 + draw(50000)
            print "go", client, 1 + draw(60)
            print "write", 1 + draw(4), 1 + draw(60)
            if (draw(8) == 0) print "sync", path_of(synced), 1 + draw(6)
            if (draw(24) == 0) {
                print "sync", path_of(synced), 12
                synced = 1 + draw(files)
            }
        }
    }
    function draw(below) {
        state = state * 48271 % 2147483647
        return state % below
    }
    function path_of(file) {
        return "/run" file "/events.root"
    }' > "$place/schedule"
}

# Takes some files out of the cache between two runs, so that there is always something to fetch.
take_some_away() {
    number=0
    for size in $sizes; do
        number=$((number + 1))
        draw 3
        if [ "$drawn" = 0 ]; then
            rm -f "$place/cache$(path_of $number).cinfo" "$place/cache$(path_of $number)"
        fi
    done
}

microseconds() {
    echo $(($(date +%s%N) / 1000))
}

# Runs the schedule, and kills that after $1 microseconds where they are given. `status` is how it ended. What the cache was before
# is kept for as long as nobody knows whether it is needed.
run() {
    rm -rf "$place/before"
    cp -R "$place/cache" "$place/before"
    began=$(microseconds)
    "$programs/xcache_replay" "$place/config" "$place/origin" "$place/cache" 10g "$place/schedule" > "$place/output" &
    running=$!
    if [ -n "$1" ]; then
        sleep "$(printf '%d.%06d' $(($1 / 1000000)) $(($1 % 1000000)))"
        kill -9 "$running" || true
    fi
    status=0
    wait "$running" || status=$?
    running=
    took=$(($(microseconds) - began))
} 2> /dev/null

# Says what is wrong, and keeps all of this round that shows it.
complain() {
    echo "round $round: $1"
    if ! [ -d "$place/kept/$round" ]; then
        mkdir -p "$place/kept/$round"
        cp -R "$place/before" "$place/cache" "$place/schedule" "$place/output" "$place/kept/$round"
    fi
}

fail() {
    failed=$((failed + 1))
    complain "the run ended with status $status: $(head -c 200 "$place/output")"
}

# Whether the cache has the origin's bytes of path $1 from byte $2 on, $3 of them.
same() {
    cmp -s -i "$2" -n "$3" "$place/origin$1" "$place/cache$1"
}

# The stretches that a printed cinfo claims of a file of $1 bytes: where each begins, how many bytes and how many blocks it has.
# The last block ends with the file. It fails where the cinfo is of another size or block size.
stretches() {
    awk -v size="$1" -v block="$block" '
        $1 == "size" && $2 != size || $1 == "block" && $2 != block { exit 1 }
        $1 == "runs" && $2 != "-" {
            count = split($2, runs, ",")
            for (i = 1; i <= count; i++) {
                split(runs[i], ends, "-")
                from = ends[1] * block
                to = (ends[2] + 1) * block
                if (to > size) to = size
                print from, to - from, ends[2] - ends[1] + 1
            }
        }' "$place/printed"
}

# Counts which blocks of path $1 are wrong in a stretch that differs somewhere, from byte $2 on, $3 bytes.
count_wrong() {
    from=$2
    left=$3
    before=$wrong
    while [ "$left" -gt 0 ]; do
        length=$((left < block ? left : block))
        same "$1" "$from" "$length" || wrong=$((wrong + 1))
        from=$((from + length))
        left=$((left - length))
    done
    complain "$((wrong - before)) blocks of $1 are claimed and wrong, in the stretch from block $(($2 / block)) on"
}

# Compares what the printed cinfo of path $1 claims with the origin.
compare() {
    if ! stretches "$(wc -c < "$place/origin$1")" > "$place/stretches"; then
        damaged=$((damaged + 1))
        complain "the cinfo of $1 is of another size or block size"
        return
    fi
    while read -r from bytes blocks; do
        claims=$((claims + blocks))
        same "$1" "$from" "$bytes" || count_wrong "$1" "$from" "$bytes"
    done < "$place/stretches"
}

# Looks at each cinfo of the cache. `claims` is how many blocks they claim now.
read_back() {
    claims=0
    for cinfo in "$place"/cache/*/*.cinfo; do
        [ -e "$cinfo" ] || continue
        cinfos=$((cinfos + 1))
        path=${cinfo#"$place/cache"}
        if "$programs/xrdpfc_print" -v "$cinfo" > "$place/printed" 2>&1; then
            compare "${path%.cinfo}"
        else
            damaged=$((damaged + 1))
            complain "$(cat "$place/printed")"
        fi
    done
    compared=$((compared + claims))
}

# Every tenth run comes to its end, the first one too; the others are killed within the time that the last took which ended.
play_round() {
    make_schedule
    if [ $((round % 10)) = 1 ]; then
        run ''
    else
        draw "$duration"
        run "$drawn"
    fi
    if [ "$status" = 0 ]; then
        ended=$((ended + 1))
        duration=$took
    elif [ "$status" = 137 ] && [ $((round % 10)) != 1 ]; then
        killed=$((killed + 1))
    else
        fail
    fi
    read_back
}

# Reads each file whole, by a client of its own, and compares what they are told with the origin. What is claimed is read from disk.
last_run() {
    number=0
    for size in $sizes; do
        number=$((number + 1))
        echo "ask $number open 0 $(path_of $number)"
        echo "ask $number read 0 0 $size"
    done > "$place/schedule"
    run ''
    [ "$status" = 0 ] || fail
    number=0
    for size in $sizes; do
        number=$((number + 1))
        {
            printf 'data %d ' "$size"
            od -An -v -tx1 "$place/origin$(path_of $number)" | tr -d ' \n'
            echo
        } > "$place/expected"
        awk -v number=$number '
            $1 == "log" { exit }
            $1 == "client" { here = $2 == number }
            here && $1 == "data"' "$place/output" > "$place/reply"
        if ! cmp -s "$place/expected" "$place/reply"; then
            replies=$((replies + 1))
            complain "client $number wasn't told the bytes of $(path_of $number)"
        fi
    done
    hits=$(grep -c '^hit [0-9]* disk ' "$place/output") || true
    [ "$hits" = "$claims" ] || complain "$claims blocks were claimed, and $hits were read from disk"
}

mkdir "$place/cache"
printf 'pfc.blocksize %d\npfc.writequeue 16 4\n' $block > "$place/config"
make_origin
round=1
while [ "$round" -le "$rounds" ]; do
    [ "$round" = 1 ] || take_some_away
    play_round
    round=$((round + 1))
done
last_run
echo "rounds: $rounds"
echo "killed: $killed"
echo "ended by themselves: $ended"
echo "restarts that failed: $failed"
echo "cinfo files read: $cinfos"
echo "damaged cinfo files: $damaged"
echo "claimed blocks compared: $compared"
echo "wrong blocks: $wrong"
echo "blocks claimed before the last run: $claims"
echo "hits from disk in the last run: $hits"
echo "wrong replies in the last run: $replies"
[ $((failed + damaged + wrong + replies)) = 0 ] && [ "$killed" -gt 0 ] && [ "$hits" = "$claims" ] && [ "$claims" -gt 0 ]
