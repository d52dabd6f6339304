# Sourced by door.sh, fuzz.sh and cost.sh at the repository's root: what they have in common, the library and a compiler for it.
#
# LIB names a library that is built already. Without it, it becomes target/staticlib/libdoor.a, which scripts/libdoor.sh builds where it is
# missing or older than its sources: so a gate that runs all three builds it once.
# On a machine that is not x86-64, `tools` is what the names of the cross tools begin with, and `run` what runs their programs.

if [ -z "${LIB:-}" ]; then
  scripts/libdoor.sh
  LIB=$PWD/target/staticlib/libdoor.a
fi

tools= static= run=()
if [ "$(uname -m)" != x86_64 ]; then
  tools=x86_64-linux-gnu- static=-static run=(qemu-x86_64)
fi

# compile PROGRAM SOURCE..: a program of door/ or examples/, with the library
compile() {
  "${tools}gcc" -std=c11 -O2 -Wall -Wextra -Wpedantic -Werror $static -Idoor "${@:2}" "$LIB" -o "$1"
}

# differs CALLS GIVEN STORED: where two files of answers are not alike, tells the first line that differs, with the call that it answers
differs() {
  ! cmp -s "$2" "$3" || return 1
  local n
  n=$(awk 'NR == FNR { ours[NR] = $0; next }
           !(FNR in ours) || ours[FNR] != $0 { print FNR; found = 1; exit }
           END { if (!found) print FNR + 1 }' "$2" "$3")
  echo "answer $n differs ($(wc -l <"$2") answers are given, $(wc -l <"$3") expected)"
  echo "call:     $(grep -av -e '^#' -e '^$' "$1" | sed -n "${n}p" | cut -c 1-200)"
  echo "given:    $(sed -n "${n}p" "$2" | cut -c 1-200)"
  echo "expected: $(sed -n "${n}p" "$3" | cut -c 1-200)"
}
