#!/usr/bin/env bash
# Tries the wrong answers in crates/NAME/tried as the gate tries those in crates/NAME/must-fail: the prover must refuse each. They are
# kept apart so that the gate stays short.
# Usage: scripts/tried.sh [NAME..]   (crates; else all)
# Needs the kit (rt, or what RT names). What the crates' out/ has proved is not proved again. Status 1 where an edit is not refused.
set -euo pipefail
cd "$(dirname "$0")/.."
for name in "$@"; do
  [ -d "crates/$name/tried" ] || { sed -n '2,5s/^# //p' "$0" >&2; echo "no wrong answers in crates/$name/tried" >&2; exit 2; }
done
work=$(mktemp -d)
trap 'rm -rf "$work"' EXIT
cp -r crates crates.txt "$work"
rm -rf "$work"/crates/*/must-fail
for tried in "$work"/crates/*/tried; do
  name=$(basename "$(dirname "$tried")")
  [[ $# != 0 && " $* " != *" $name "* ]] || mv "$tried" "$work/crates/$name/must-fail"
done
cd "$work"
"${RT:-rt}" must-fail "$@"
