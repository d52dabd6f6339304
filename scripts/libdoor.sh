#!/usr/bin/env bash
# Proves the calls for C and builds their library, target/staticlib/libdoor.a, where that is missing, older than its sources or of another kit.
# Usage: scripts/libdoor.sh
# Needs the kit (rt, or what RT names). Status 1 where it is not proved or can't be built.
set -euo pipefail
[ $# = 0 ] || { sed -n '2,4s/^# //p' "$0" >&2; exit 2; }
cd "$(dirname "$0")/.."
lib=target/staticlib/libdoor.a made=target/staticlib/kit # the kit that made it
rt=$(readlink -f "$(type -P "${RT:-rt}")") || { echo "libdoor: the Rattle kit is not here: no ${RT:-rt} in PATH" >&2; exit 1; }
kit=$("$rt" version)
[ ! -f $lib ] || [ "$(cat $made 2>/dev/null)" != "$kit" ] || [ -n "$(find crates.txt crates/*/{src,specs,proofs} -newer $lib -print -quit 2>/dev/null)" ] || exit 0
(cd crates/door_c && "$rt" lib) >&2
mkdir -p target/staticlib
cp crates/door_c/out/libdoor_c.a $lib
echo "$kit" >$made
