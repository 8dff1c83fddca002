#!/bin/sh
# Prints what the hot paths cost, and beside it what the same jobs cost in C (gcc -O2), with the ratio of C's time to ours:
# above 1 ours is faster. The buffer has 16 MiB, the sets have 16777216 numbers, the stored file has 4 blocks of 1 MiB and lies in
# the folder for temporary files. A catalog of 1000000 files takes 700 MB. Figures of one run; noise is about a fifth.
set -eu
top=$(cd "$(dirname "$0")/../.." && pwd)
place=$(mktemp -d)
trap 'rm -rf "$place"' EXIT
for part in baseline files; do
    gcc -O2 -o "$place/$part" "$top/examples/bench/$part.c"
    "$place/$part" >> "$place/c"
done
"$top/bin/pfc_bench" measure > "$place/ours"
awk -F': ' '
    NR == FNR { split($2, f, " "); c[$1] = f[1]; next }
    { split($2, f, " "); if ($1 in c) printf "%-34s %12d ns   C %12d ns   ratio %.2f\n", $1, f[1], c[$1], c[$1] / f[1]; else printf "%-34s %12d ns\n", $1, f[1] }
' "$place/c" "$place/ours"
