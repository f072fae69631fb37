#!/bin/sh
# Copies the thirteen originals, compares them byte for byte and builds the oracle, offline.
# usage: [ENGINE=path of the archive] oracle/build.sh [folder with the originals, default ../shared/docs/src/src]
# The folder may also hold them side by side, under names like src--src--subset--subset.rs.txt.
# PROFILE chooses one of Cargo.toml's profiles, for measuring.
# With ENGINE the engine is linked and can be compared; `make lib` makes build/libbelkjund.a.
set -eu
here=$(cd "$(dirname "$0")" && pwd)
from=${1:-$here/../../shared/docs/src/src}
mkdir -p "$here/originals/subset" "$here/originals/honey_badger"
while read -r name; do
    source=$from/$name
    [ -e "$source" ] || source=$from/src--src--$(echo "$name" | sed 's|/|--|g').txt
    cmp -s "$source" "$here/originals/$name" || cp -f "$source" "$here/originals/$name"
    cmp "$source" "$here/originals/$name"
done < "$here/originals.txt"
features=
if [ -n "${ENGINE:-}" ]; then
    ENGINE=$(realpath "$ENGINE")
    export ENGINE
    features='--features runs/engine'
fi
cd "$here"
# shellcheck disable=SC2086
exec cargo build --profile "${PROFILE:-release}" --offline --quiet -j "${JOBS:-1}" $features
