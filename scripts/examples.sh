#!/usr/bin/env bash
# Plays every list of examples/ to the bench and holds its answers to those stored beside it, NAME.answers beside NAME.txt.
# Usage: scripts/examples.sh [COMMAND..]   (a program that reads lists and writes answers; else ./bench)
# Status 1 where an answer differs or has nothing to be compared with. The last line is 'N passed, M failed'.
set -euo pipefail
cd "$(dirname "$0")/.."
[ $# != 0 ] || set -- ./bench
passed=0 failed=0
for list in examples/*.txt; do
  stored=${list%.txt}.answers
  if told=$("$@" <"$list" | diff - "$stored"); then
    echo "$list: $(wc -l <"$stored") answers, those of $stored"
    passed=$((passed + 1))
  else
    printf '%s: not the answers of %s; the first lines of the difference (< given, > stored):\n%s\n' "$list" "$stored" "$(head -n 4 <<<"$told")"
    failed=$((failed + 1))
  fi
done
echo "$passed passed, $failed failed"
[ $failed = 0 ]
