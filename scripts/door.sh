#!/usr/bin/env bash
# Holds the header for C to the library. It is compiled as C99, C11, C++11 and freestanding; its numbers are compared with the library's
# (door/layout.c); the bench's stored list of calls is played through it and the answers compared with the stored ones; the main loop of
# examples/ runs through a recorded hall; and some random calls are made (scripts/fuzz.sh makes more).
# Usage: scripts/door.sh [CALLS ANSWERS]   (CALLS and ANSWERS: files in the format of docs/BENCH.md; else those of crates/bench)
# Needs the kit (rt, or what RT names) and gcc; on a machine that is not x86-64 gcc-x86-64-linux-gnu and qemu-user. LIB names a library
# that is built already. Status 1 where anything differs.
set -euo pipefail
[ $# = 0 ] || [ $# = 2 ] || { sed -n '2,7s/^# //p' "$0" >&2; exit 2; }
calls=$(realpath "${1:-$(dirname "$0")/../crates/bench/stdin}")
answers=$(realpath "${2:-$(dirname "$0")/../crates/bench/stdout}")
[ -z "${LIB:-}" ] || LIB=$(realpath "$LIB")
cd "$(dirname "$0")/.."
work=$(mktemp -d)
trap 'rm -rf "$work"' EXIT
. scripts/library.sh

# try COMPILER LANGUAGE STANDARD: the header, and a program that links with the library. It is linked as C whatever it is written in: it
# asks nothing of a C++ library, and not every cross compiler can link that statically.
try() {
  printf '#include "sinezhab.h"\nint main(void) { return sinezhab_version() != SINEZHAB_VERSION; }\n' >"$work/version.$2"
  "$1" -std="$3" -Wall -Wextra -Wpedantic -Werror -ffreestanding -fsyntax-only -Idoor "$work/version.$2"
  "$1" -std="$3" -Wall -Wextra -Wpedantic -Werror -Idoor -c "$work/version.$2" -o "$work/version.o"
  "${tools}gcc" $static "$work/version.o" "$LIB" -o "$work/version"
  "${run[@]}" "$work/version" || { echo "header: as $3, its version is not the library's"; exit 1; }
  tried="${tried:+$tried, }$3"
}
tried=
try "${tools}gcc" c c99
try "${tools}gcc" c c11
! command -v "${tools}g++" >/dev/null || try "${tools}g++" cc c++11
case $tried in *c++11) ;; *) echo "header: no ${tools}g++ here, so it was not tried as C++" ;; esac

# what the library asks of others: no more than any freestanding code may
asks=$(comm -23 <("${tools}nm" -u "$LIB" | awk '$1 == "U" { print $2 }' | sort -u) \
  <("${tools}nm" --defined-only "$LIB" | awk 'NF == 3 { print $3 }' | sort -u))
for name in $asks; do
  case $name in memcpy | memmove | memset | memcmp) ;; *) echo "library: it asks for $name, and the header does not say so"; exit 1 ;; esac
done
echo "header: compiled as $tried, hosted and freestanding; the library asks for" ${asks:-nothing}

compile "$work/layout" door/layout.c
"${run[@]}" "$work/layout"

compile "$work/replay" door/replay.c
"${run[@]}" "$work/replay" <"$calls" >"$work/answers"
! differs "$calls" "$work/answers" "$answers" || exit 1
echo "replay: $(wc -l <"$answers") answers of the door to ${calls#"$PWD"/} are those of ${answers#"$PWD"/}"

compile "$work/loop" examples/loop.c
"${run[@]}" "$work/loop" <examples/hall.events >"$work/hall"
diff "$work/hall" examples/hall.out || { echo "loop: not what examples/hall.out has (< given, > stored)"; exit 1; }
echo "loop: $(wc -l <examples/hall.out) lines to examples/hall.events are those of examples/hall.out"

LIB=$LIB scripts/fuzz.sh 5000
