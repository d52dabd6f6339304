#!/usr/bin/env bash
# Makes random calls of every function of the library, with any octets in what is lent, and looks at what each leaves (door/fuzz.c); and
# plays a random list of calls through the library and through a bench, whose answers must be alike.
# Usage: scripts/fuzz.sh [CALLS [SEED]]   (CALLS of each function, else 1,000,000; SEED, else 1)
# Needs what door.sh needs. LIB names a library that is built already. BENCH is the command that plays lists, ./bench for example; without
# it no list is played. Status 1 where anything is wrong; the line that says so has the seed, with which it happens again.
set -euo pipefail
[ $# -le 2 ] || { sed -n '2,6s/^# //p' "$0" >&2; exit 2; }
count=${1:-1000000} seed=${2:-1}
[ -z "${LIB:-}" ] || LIB=$(realpath "$LIB")
cd "$(dirname "$0")/.."
work=$(mktemp -d)
trap 'rm -rf "$work"' EXIT
. scripts/library.sh

compile "$work/fuzz" door/fuzz.c
"${run[@]}" "$work/fuzz" "$seed" "$count" "$work/list"

[ -n "${BENCH:-}" ] || exit 0
compile "$work/replay" door/replay.c
"${run[@]}" "$work/replay" <"$work/list" >"$work/answers"
$BENCH <"$work/list" >"$work/expected"
! differs "$work/list" "$work/answers" "$work/expected" || exit 1
echo "fuzz: seed $seed: $(wc -l <"$work/answers") answers of the door are those of $BENCH"
