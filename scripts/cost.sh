#!/usr/bin/env bash
# What the calls of the door cost: instructions, stack, text and state, and linuxptp's instructions for like work. docs/COST.md has them.
# Usage: scripts/cost.sh
# Needs a Debian machine with the kit (rt, or what RT names), python3 and dpkg-dev; where it is x86-64 gcc, binutils and valgrind, else
# gcc-x86-64-linux-gnu and qemu-user. LIB names a library that is built already, LINUXPTP a folder with linuxptp's source; else that is
# fetched from the machine's own package sources, into a temporary folder, and where it can't be its table is left out. The counts are the
# same at each run with the same kit and gcc.
set -euo pipefail
[ $# = 0 ] || { sed -n '2,7s/^# //p' "$0" >&2; exit 2; }
[ -z "${LIB:-}" ] || LIB=$(realpath "$LIB")
[ -z "${LINUXPTP:-}" ] || LINUXPTP=$(realpath "$LINUXPTP")
cd "$(dirname "$0")/.."
work=$(mktemp -d)
trap 'rm -rf "$work"' EXIT
. scripts/library.sh
cost=$PWD/scripts/cost
link=-Wl,-z,now traced=
if [ -n "$tools" ]; then
  link="-no-pie $link" traced=-DTRACED run=(qemu-x86_64 -L /usr/x86_64-linux-gnu)
fi
export OBJDUMP="${OBJDUMP:-${tools}objdump}"

# compile WORDS..: C for x86-64, in place of library.sh's
compile() { "${tools}gcc" -O2 $traced "$@"; }

# linuxptp's source by the machine's package sources, asked for sources; no setting of the machine is changed
fetch() {
  local apt=$work/apt
  mkdir -p "$apt/parts" "$apt/lists/partial" "$apt/cache/archives/partial"
  for list in /etc/apt/sources.list /etc/apt/sources.list.d/*.list /etc/apt/sources.list.d/*.sources; do
    [ ! -e "$list" ] || sed 's/^Types:.*/Types: deb-src/; s/^deb /deb-src /' "$list" >"$apt/parts/$(basename "$list")"
  done
  mv "$apt/parts/sources.list" "$apt/parts/main.list" 2>/dev/null || true
  local options=(-q -o Dir::Etc::sourcelist=/dev/null -o Dir::Etc::sourceparts="$apt/parts" -o Dir::State::lists="$apt/lists"
                 -o Dir::Cache="$apt/cache" -o APT::Sandbox::User="$(id -un)")
  (cd "$apt" && apt-get "${options[@]}" update && apt-get "${options[@]}" source --download-only linuxptp &&
    dpkg-source --no-check -x linuxptp_*.dsc "$work/linuxptp") >"$work/log" 2>&1 || { tail -n 3 "$work/log" >&2; return 1; }
  LINUXPTP=$work/linuxptp
}

# count PROGRAM OBJECTS FUNCTION..: the table of the program's counted calls: what is run within the functions, which the objects hold.
# clock_gettime among them is what is left out: to enter it ends counting, to leave it goes on.
count() {
  local program=$1 objects=$2 function toggles=()
  shift 2
  echo "| Call | Instructions | Of them copying, comparing |"
  echo "|---|---|---|"
  if [ -n "$traced" ]; then
    python3 "$cost/trace.py" "$program" $objects -- "$@"
    return
  fi
  for function in "$@"; do toggles+=("--toggle-collect=$function"); done
  valgrind --tool=callgrind --callgrind-out-file="$program.dump" "${toggles[@]}" "$program" >"$work/log" 2>&1 ||
    { cat "$work/log" >&2; exit 1; }
  python3 "$cost/table.py" "$program".dump.*
}

compile -fno-builtin -fno-tree-vectorize -fno-tree-loop-distribute-patterns -c "$cost/plain.c" -o "$work/plain.o"
compile -std=c11 -Wall -Wextra -Idoor -I"$cost" "$cost/ours.c" "$work/plain.o" "$LIB" $link -o "$work/ours"
echo "## Instructions of the door"
count "$work/ours" "$LIB" sinezhab_{read,write,make,receive,time,request,sent,reset,tick,line,show} | tee "$work/ours.table"

# linuxptp's own table
theirs() {
  cd "$LINUXPTP"
  local defines part
  defines=$(./incdefs.sh)
  for part in msg tlv bmc pi mmedian filter print; do
    compile -w -ffunction-sections $defines -DVER=0 -c $part.c -o "$work/$part.o"
  done
  compile -w -ffunction-sections $defines -I. -I"$cost" -c "$cost/linuxptp.c" -o "$work/driver.o"
  compile "$work"/{driver,msg,tlv,bmc,pi,mmedian,filter,print,plain}.o -Wl,--gc-sections $link -lm -o "$work/theirs"
  cd - >/dev/null
  count "$work/theirs" "$(echo "$work"/{msg,tlv,bmc,pi,mmedian,filter,print}.o)" \
    msg_post_recv dscmp pi_sample mmedian_sample clock_gettime
}
echo
if [ -n "${LINUXPTP:-}" ] || fetch; then
  echo "## Instructions of linuxptp $(sed -n '1s/.*(\(.*\)).*/\1/p' "$LINUXPTP/debian/changelog" 2>/dev/null)"
  theirs
else
  echo "## Instructions of linuxptp: its source can't be fetched here"
fi

echo
echo "## Deepest stack, octets"
python3 "$cost/stack.py" "$LIB" sinezhab_ | tee "$work/stack"

echo
echo "## Library and state, octets"
code=$("${tools}size" -A "$LIB" | awk '/^\.text/ { n += $2 } END { print n + 0 }')
data=$("${tools}size" -A "$LIB" | awk '/^\.rodata/ { n += $2 } END { print n + 0 }')
asks=$("${tools}nm" -u "$LIB" 2>/dev/null | awk '/ U / { print $2 }' | sort -u | tr '\n' ' ')
echo "code $code, constants $data; asks of the C library: $asks"
compile -std=c11 -Idoor -Wall -Wextra "$cost/sizes.c" $link -o "$work/sizes"
"${run[@]}" "$work/sizes" | tee "$work/state"

# held NAME FIGURE LIMIT: says whether the figure is within the target
held() { echo "$1: $2, target $3: $([ "$2" -le "$3" ] && echo met || echo missed)"; }
# row NAME: the instructions of a call
row() { awk -F ' [|] ' -v name="| $1" '$1 == name { gsub(",", "", $2); print $2 }' "$work/ours.table"; }
# dearest NAME: those of the dearest call whose name begins so and that wipes nothing
dearest() {
  awk -F ' [|] ' -v name="| $1" 'index($1, name) == 1 && !/wiped/ { gsub(",", "", $2); if (most < $2 + 0) most = $2 + 0 }
                                 END { print most + 0 }' "$work/ours.table"
}
# stack NAMES: the deepest stack of the calls whose names fit the pattern
stack() { awk -v names="^sinezhab_($1)$" '$2 ~ names && most < $1 { most = $1 } END { print most + 0 }' "$work/stack"; }

echo
echo "## Targets"
held "stack of receive and time" "$(stack 'receive|time')" 2048
held "stack of every other call" "$(stack 'make|read|write|request|sent|reset|tick|line|show|version')" 1024
held "state" "$(awk '{ print $NF }' "$work/state")" 3072
held "code and constants" $((code + data)) 49152
held "reading an Announce" "$(row "read Announce")" 176
held "dearest Announce that wipes nothing" "$(dearest "receive: Announce")" 1000
held "dearest Sync" "$(dearest "receive: Sync")" 700
held "Follow_Up" "$(dearest "receive: Follow_Up")" 700
held "dearest Delay_Resp that wipes nothing" "$(dearest "receive: Delay_Resp")" 1100
held "dearest time that wipes nothing" "$(dearest time)" 800
held "dearest tick that wipes nothing" "$(dearest tick)" 600
held "dearest line" "$(dearest line)" 2600
