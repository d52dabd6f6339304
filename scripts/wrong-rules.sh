#!/usr/bin/env bash
# Tries wrong rules that are put into the code and into the definitions of its contract alike: the crate that has them proves them, and
# one above it must refuse: the story, which is told from the calls and answers alone, the unit, the settings, or demands, which has numbers
# for what story and code share. Each takes some minutes.
# Usage: scripts/wrong-rules.sh
# Needs the kit (rt, or what RT names). What the crates' out/ has proved is not proved again. Status 1 where nothing refuses.
set -euo pipefail
cd "$(dirname "$0")/.."
work=$(mktemp -d)
trap 'rm -rf "$work"' EXIT

# try NAME PROVED REFUSED FILE OLD NEW [FILE OLD NEW ..]: with each OLD, found once in its FILE, made NEW, the crate PROVED is proved and
# REFUSED is not.
try() {
  local name=$1 proved=$2 refused=$3
  shift 3
  rm -rf "$work/tree"
  mkdir "$work/tree"
  cp -r crates crates.txt "$work/tree"
  while [ $# -gt 0 ]; do
    OLD=$2 NEW=$3 perl -0pi -e 'BEGIN { $n = 0 } $n += s/\Q$ENV{OLD}\E/$ENV{NEW}/g; END { exit($n != 1) }' "$work/tree/crates/$1" ||
      { echo "wrong-rules: $name: '$2' is not there once in crates/$1" >&2; return 1; }
    shift 3
  done
  (cd "$work/tree/crates/$proved" && "${RT:-rt}" check >"$work/log" 2>&1) || { echo "wrong-rules: $name: $proved is not proved" >&2; grep ': error' "$work/log" | head -3 >&2; return 1; }
  if (cd "$work/tree/crates/$refused" && "${RT:-rt}" check >"$work/log" 2>&1); then
    echo "wrong-rules: $name: $refused is proved, and must not be" >&2
    return 1
  fi
  # rt names each crate as it comes to it
  grep '^rt: chose ' "$work/log" | tail -1 | grep -q " for $refused\$" || { echo "wrong-rules: $name: a crate below $refused failed" >&2; return 1; }
  echo "$name: $proved proved, $refused refuses: $(grep -m1 -oE '^(note: )?\S+:[0-9]+:[0-9]+: .*' <(sed "1,/^rt: chose .* for $refused\$/d" "$work/log") | cut -c1-160)"
}

try sequence_of_65535 unit story \
  unit_measuring/src/asking.rt 'core.domain.sequence.wrapping_add(1)' '((core.domain.sequence as u32 + 1) % 65_535) as u16' \
  unit_measuring/specs/Asking.antt '(k.sequence + 1) % 2 ^ 16' '(k.sequence + 1) % 65535'
try one_step_correction_twice rules_exchange story_exchange \
  rules_exchange/src/halves.rt 'correction,
            follow: 0,' 'correction,
            follow: if two_step { 0 } else { correction },' \
  rules_exchange/specs/Halves.antt 'knows n t1 t2 c (pos 0)' 'knows n t1 t2 c c'
try wipe_unsaid unit_choosing unit \
  unit_choosing/src/lib.rt 'core.wipe(now, Answer::Choice(decision))' 'core.wipe(now, Answer::Choice(Decision::Same(chosen)))' \
  unit_choosing/src/lib.rt 'use rules_masters::chosen::Chosen;' 'use rules_masters::chosen::Chosen;
use rules_masters::chosen::Decision;' \
  unit_choosing/specs/Choosing.antt 'wipes (Choice d)' 'wipes (Choice (Same c))' \
  unit_choosing/specs/Choosing.antt 'use Rattle.rules_masters.specs.Holding.' 'use Rattle.rules_masters.specs.declared.chosen.Decision.TheVariants.{Same}
use Rattle.rules_masters.specs.Holding.'
try minimum_one_too_low rules_watch rules_settings \
  rules_watch/src/settings.rt 'self.minimum.max(2)' 'if self.minimum < 3 { 2 } else { self.minimum - 1 }' \
  rules_watch/specs/Settings.antt 'least_of t = max 2 t.minimum' 'least_of t = max 2 (t.minimum - 1)' \
  rules_watch/specs/Settings.antt 'use Rattle.std.specs.Prelude.{ℕ, min, max}' 'use Rattle.std.specs.Prelude.{ℕ, ◌-◌, min, max}'
try steps_of_254 rules_masters demands \
  rules_masters/src/admission.rt 'if 255 <= announce.offer.steps' 'if 254 <= announce.offer.steps' \
  rules_masters/specs/Admitting.antt 'leb 255 m.offer.steps' 'leb 254 m.offer.steps'
