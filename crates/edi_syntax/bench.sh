#!/bin/sh
# bench.sh [CRATE]: times edi_syntax, or edi_messages if that is named, on an interchange of a megabyte, beside a plain
# C scanner in the same run: the crate's bench/main.rt.txt, as a program over a copy of it and those that it stands on,
# and bench/scan.c.txt. Prints the best time of each per megabyte, and the share of the scanner's speed that it is.
# Wanted: half of it for opening and reading as orders, a third of it for cutting.
# Of edi_messages also the instructions a byte, if valgrind is there. Wanted: 60.
# Of edi_syntax also the allocations while opening and walking over the segments, by bench/count.c.txt. Wanted: none.
set -eu
top=$(cd "$(dirname "$0")/../.." && pwd)
crate=${1:-edi_syntax}
work=$(mktemp -d)
trap 'rm -rf "$work"' EXIT
mkdir -p "$work/crates/edi_bench/src"
for name in box6346 edi_syntax edi_messages; do
    cp -a "$top/crates/$name" "$work/crates"
    grep -E "^$name:" "$top/crates.txt"
done > "$work/crates.txt"
echo "edi_bench: $(sed -n "s/^$crate: //p" "$work/crates.txt") $crate" >> "$work/crates.txt"
cp "$top/HANDLES" "$work"
cp "$top/crates/$crate/bench/main.rt.txt" "$work/crates/edi_bench/src/main.rt"
awk 'BEGIN {
    printf "UNB+UNOA:3+HAULA+TERM1+240305:0910+000001\x27"
    for (n = 1; n <= 228; n++) {
        printf "UNH+%d+CODECO:D:95B:UN:ITG14\x27BGM+34+G1+9\x27", n
        for (i = 0; i < 40; i++) printf "EQD+CN+ABCU0000017+22G1:102:5+++5\x27RFF+BN:BOOKING?+0001\x27DTM+7:202403080700:203\x27LOC+ZZZ+A001011\x27LOC+11+NLRTM:139:6\x27"
        printf "UNT+203+%d\x27", n
    }
    printf "UNZ+228+000001\x27"
}' > "$work/text.edi"
cc -O2 -x c -o "$work/scan" "$top/crates/edi_syntax/bench/scan.c.txt"
cd "$work/crates/edi_bench"
rt run -- "$work/text.edi" > "$work/build.log" || { cat "$work/build.log"; exit 1; }
for run in 1 2 3; do
    out/edi_bench "$work/text.edi"
    "$work/scan" "$work/text.edi"
done > "$work/times"
awk '
    function row(what, name, wanted) {
        if (!(what in best)) return
        printf "%-16s %5d us, %.2f of its speed%s\n", name ":", best[what], best["scan"] / best[what], wanted
    }
    $2 == "scanner:" { time = $(NF - 1); what = "scan" }
    $2 != "scanner:" { time = $2; what = $1 }
    !(what in best) || time < best[what] { best[what] = time }
    END {
        printf "C scanner:       %5d us\n", best["scan"]
        row("open", "open")
        row("cut", "cut in pieces", " (wanted: 0.33)")
        row("orders", "open and read", " (wanted: 0.50)")
    }' "$work/times"
if [ "$crate" != edi_syntax ]; then
    command -v valgrind > /dev/null || exit 0
    counted() {
        valgrind --tool=callgrind --callgrind-out-file=/dev/null out/edi_bench "$work/text.edi" "$1" 2>&1 > /dev/null \
            | sed -n 's/.*Collected : //p'
    }
    once=$(counted 1)
    often=$(counted 11)
    size=$(wc -c < "$work/text.edi")
    echo "instructions a byte: $(awk "BEGIN { printf \"%.1f\", ($often - $once) / 10 / $size }") (wanted: 60)"
    exit 0
fi
cc -O2 -shared -fPIC -x c -o "$work/count.so" "$top/crates/edi_syntax/bench/count.c.txt"
none=$(LD_PRELOAD="$work/count.so" out/edi_bench "$work/text.edi" 0 2>&1 > /dev/null)
some=$(LD_PRELOAD="$work/count.so" out/edi_bench "$work/text.edi" 100 2>&1 > /dev/null)
echo "allocations in 100 times opening and walking: $((some - none)) (wanted: 0)"
