#!/bin/sh
# Runs two clients and a writer over real folders: an origin with a file of 8 MiB of random bytes, an empty cache, a site's
# configuration and a schedule in which both clients ask for the same block while it is in flight, which is then written and read
# from the cache's disk, and in which one request reads several pieces. Shows the schedule, the replies, the log of the file, the same bytes as od sees them in the origin's file,
# and that the cache's file has the origin's first block.
set -eu
top=$(cd "$(dirname "$0")/.." && pwd)
place=$(mktemp -d)
trap 'rm -rf "$place"' EXIT
mkdir "$place/origin" "$place/origin/run7" "$place/cache"
head -c 8388608 /dev/urandom > "$place/origin/run7/events.root"
cp "$top/examples/xcache.cfg" "$place/xcache.cfg"
cat > "$place/schedule" <<'SCHEDULE'
# both open the file
ask 1 open 0 /run7/events.root
ask 2 open 3 /run7/events.root
go 1 10
go 2 10
# the first begins to fetch a block, the second joins it, then both go on
ask 1 read 0 0 16
ask 2 read 3 8 24
go 1
go 2
go 1 10
go 2 10
# a writer puts the block on disk, and it is read from there
write 1 6
ask 2 read 3 100 16
go 2 10
ask 1 read 0 8388600 100
# four pieces by one request: two share a block, one is over the end of a block, one is empty
ask 1 readv 0 0:4 1048572:8 16:4 100:0
ask 2 open 4 /run7/missing.root
ask 1 close 0
SCHEDULE
cd "$place"
echo "The schedule:"
sed 's/^/    /' schedule
echo "xcache_replay xcache.cfg origin cache 10g schedule"
"$top/bin/xcache_replay" xcache.cfg origin cache 10g schedule | sed 's/^/    /'
echo "The same bytes of the origin's file, by od:"
for range in "0 16" "8 24" "100 16" "8388600 8" "0 4" "1048572 8" "16 4"; do
    set -- $range
    od -An -v -tx1 -j "$1" -N "$2" origin/run7/events.root | tr -d ' \n' | sed 's/^/    /'
    echo
done
block=$(sed -n 's/^pfc.blocksize *\([0-9]*\)m.*/\1/p' xcache.cfg)
cmp -n "$((${block:-1} * 1048576))" origin/run7/events.root cache/run7/events.root
echo "The cache's file has the origin's first block."
