#!/bin/sh
# Builds the oracle, runs the cases, replays the recorded runs and makes them again.
# usage: oracle/test.sh [folder with the originals]
set -eu
here=$(cd "$(dirname "$0")" && pwd)
"$here/build.sh" "$@"
cd "$here"
oracle=target/release/oracle
$oracle check cases/*.txt
$oracle replay recorded/*.bin
$oracle pairs recorded/clean*.bin recorded/ahead*.bin
while read -r file class seed runs calls; do
    $oracle generate "$class" "$seed" "$runs" "$calls" | cmp - "recorded/$file.bin"
done < recorded/seeds.txt
echo "the recorded set was made again, word for word"
