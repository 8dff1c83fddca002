#!/bin/sh
# Runs one schedule three times over the same real folders: the first run fetches a block and claims it, the second reads it from
# disk, and before the third a byte of the cinfo is changed, so that it is thrown away and the block is fetched again. Fails where
# a log says otherwise.
set -eu
top=$(cd "$(dirname "$0")/.." && pwd)
place=$(mktemp -d)
trap 'rm -rf "$place"' EXIT
mkdir "$place/origin" "$place/cache"
head -c 300000 /dev/urandom > "$place/origin/events"
cd "$place"
echo 'pfc.blocksize 64k' > config
printf 'ask 1 open 0 /events\nask 1 read 0 70000 8\n' > schedule

# one run, shown, with the entry that its log must have
run() {
    echo "$1"
    "$top/bin/xcache_replay" config origin cache 10g schedule > output
    sed 's/^/    /' output
    grep -qx "$2" output || { echo "no entry '$2'" >&2; exit 1; }
    grep -qx "data 8 $(od -An -v -tx1 -j 70000 -N 8 origin/events | tr -d ' \n')" output || { echo "other bytes" >&2; exit 1; }
}

run "An empty cache: the block is fetched, written, synced and claimed." "begin 0 1 1"
echo "What the cinfo says:"
"$top/bin/xrdpfc_print" -v cache/events.cinfo | sed 's/^/    /'
run "The next run: the block is read from disk." "hit 1 disk 1"
echo "Both accesses are on record:"
"$top/bin/xrdpfc_print" -v cache/events.cinfo > cinfo
grep '^record ' cinfo | sed 's/^/    /'
[ "$(grep -c '^record ' cinfo)" = 2 ] || { echo "not two records" >&2; exit 1; }
printf '\377' | dd of=cache/events.cinfo bs=1 seek=44 conv=notrunc 2>/dev/null
run "A cinfo with one byte changed is thrown away, and the block is fetched again." "begin 0 1 1"
