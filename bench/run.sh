#!/bin/sh
# Measures the engine beside the original and writes the figures into bench/README.md and bench/cost.svg.
# usage: bench/run.sh ARCHIVE [REPEATS, default 15]
# It needs cargo, a C compiler, python3 and the originals (oracle/README.md). Some two minutes; one core is enough, and it should be quiet.
set -eu
command -v cargo > /dev/null || { echo "bench: 'cargo' is missing: the original is in Rust; https://rustup.rs" >&2; exit 1; }
command -v python3 > /dev/null || { echo "bench: 'python3' is missing; on Debian: apt-get install python3" >&2; exit 1; }
[ $# -ge 1 ] || { sed -n '2,4p' "$0" | cut -c3-; exit 2; }
here=$(cd "$(dirname "$0")" && pwd)
archive=$(realpath "$1")
repeats=${2:-15}
out=${OUT:-$here/../build/bench}
mkdir -p "$out/lib"
rm -f "$out"/*.tsv "$out"/*.bin
cp "$archive" "$out/lib/libbelkjund.a"
echo "load average $(cut -d' ' -f1-3 /proc/loadavg)" > "$out/machine"
grep -m1 'model name' /proc/cpuinfo | cut -d: -f2 >> "$out/machine"
cargo --version >> "$out/machine"
sha256sum "$archive" | cut -c1-16 >> "$out/machine"
for profile in speed lto; do
    echo "building the original and the oracle ($profile)"
    ENGINE=$out/lib/libbelkjund.a PROFILE=$profile "$here/../oracle/build.sh" ${ORIGINALS:+"$ORIGINALS"}
done
speed=$here/../oracle/target/speed/oracle
lto=$here/../oracle/target/lto/oracle
for n in 1 2 4 7 10 13 16; do
    for f in 0 3 7 15; do
        "$speed" sized $n $f 11 $((2 + 88 / n)) $((60 + 40 * n)) > "$out/n$n-f$f.bin"
        times=$repeats
        case $n-$f in 4-3 | 7-3 | 16-15) times=$((3 * repeats)) ;; esac
        "$speed" bench $times "$out/n$n-f$f.bin" > "$out/sized-n$n-f$f.tsv"
        echo "N $n F $f measured"
    done
done
for size in n4-f3 n7-f3 n16-f15; do
    "$lto" bench $((3 * repeats)) "$out/$size.bin" > "$out/lto-$size.tsv"
done
"$speed" bench "$repeats" "$here"/../oracle/recorded/*.bin > "$out/recorded.tsv"
echo "recorded runs measured"
${CC:-cc} -std=c99 -O2 -Wall -Wextra -pedantic -I"$here/../include" "$here/drive.c" "$out/lib/libbelkjund.a" -Wl,-z,now -o "$out/drive"
for size in n4-f3 n7-f3 n16-f15; do
    "$out/drive" stack "$out/$size.bin" > "$out/stack-$size.txt"
done
"$out/drive" stack "$here"/../oracle/recorded/*.bin > "$out/stack-recorded.txt"
exec python3 "$here/report.py" "$out"
