#!/bin/sh
# Makes the recorded set again: one file for each line, from its class, seed, runs and calls.
set -eu
cd "$(dirname "$0")"
while read -r file class seed runs calls; do
    target/release/oracle generate "$class" "$seed" "$runs" "$calls" > "recorded/$file.bin"
done < recorded/seeds.txt
