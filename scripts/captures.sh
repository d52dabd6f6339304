#!/usr/bin/env bash
# Compares what the bench reads of captured frames with what tshark reads of the same frames, field by field.
# Usage: scripts/captures.sh FOLDER   (FOLDER has NAME.pcap and, of the same frames, NAME.hex: a line `time octets` for each)
# Needs tshark and the kit (./bench runs the bench). Exit status 1 where a field differs.
set -euo pipefail
[ $# = 1 ] || { sed -n '2,4s/^# //p' "$0" >&2; exit 2; }
bench=$(dirname "$0")/../bench
work=$(mktemp -d)
trap 'rm -rf "$work"' EXIT

# tshark's fields, in the order of the bench's words; a timestamp has another name in each kind
header=(messagetype majorsdoid minorversionptp domainnumber minorsdoid flags correction.ns correction.subns messagetypespecific
        clockidentity sourceportid sequenceid controlfield logmessageperiod)
stamps=(sdr.origintimestamp fu.preciseorigintimestamp dr.receivetimestamp an.origintimestamp)
body=(dr.requestingsourceportidentity dr.requestingsourceportid an.origincurrentutcoffset an.priority1 an.grandmasterclockclass
      an.grandmasterclockaccuracy an.grandmasterclockvariance an.priority2 an.grandmasterclockidentity an.localstepsremoved timesource)
fields=()
for f in "${header[@]}"; do fields+=(-e "ptp.v2.$f"); done
for s in "${stamps[@]}"; do fields+=(-e "ptp.v2.$s.seconds" -e "ptp.v2.$s.nanoseconds"); done
for f in "${body[@]}"; do fields+=(-e "ptp.v2.$f"); done

# what tshark says, as the words that the bench would answer, but for the reserved octet and the suffix, which it does not show
words='
function number(x,  n, i) {
  if (x !~ /^0x/) return x == "" ? 0 : x
  n = 0
  for (i = 3; i <= length(x); i++) n = n * 16 + index("0123456789abcdef", substr(x, i, 1)) - 1
  return n
}
function identity(x) { sub(/^0x/, "", x); return x }
{
  kind = number($1)
  if (kind != 0 && kind != 1 && kind != 8 && kind != 9 && kind != 11) { print "refused 3"; next }
  at = kind == 8 ? 17 : kind == 9 ? 19 : kind == 11 ? 21 : 15
  line = "message kind=" kind " sdo=" number($2) " minor=" number($3) " domain=" number($4) " minorsdo=" number($5) " flags=" number($6)
  line = line " correction=" number($7) * 65536 + number($8) * 65536 " specific=" number($9) " clock=" identity($10) " port=" number($11)
  line = line " sequence=" number($12) " control=" number($13) " interval=" number($14) " seconds=" number($at) " nanos=" number($(at + 1))
  if (kind == 9) line = line " requesting=" identity($23) "-" number($24)
  if (kind == 11) line = line " utc=" number($25) " p1=" number($26) " class=" number($27) " accuracy=" number($28) " variance=" number($29) " p2=" number($30) " grandmaster=" identity($31) " steps=" number($32) " source=" number($33)
  print line
}'

frames=0
differ=0
for pcap in "$1"/*.pcap; do
  name=$(basename "$pcap" .pcap)
  # 14 octets of Ethernet header; with IPv4 and UDP 42
  awk '{ o = $2; print "read " substr(o, substr(o, 25, 4) == "0800" ? 85 : 29) }' "$1/$name.hex" >"$work/calls"
  "$bench" <"$work/calls" | sed 's/ suffix=.*//; s/ reserved=[0-9]*//' >"$work/ours"
  tshark -r "$pcap" -T fields -E separator='|' -E occurrence=f "${fields[@]}" 2>/dev/null | awk -F'|' "$words" >"$work/theirs"
  n=$(wc -l <"$work/calls")
  d=$(paste -d'\n' "$work/ours" "$work/theirs" | awk 'NR % 2 { a = $0; next } a != $0 { n++ } END { print n + 0 }')
  r=$(grep -c '^refused' "$work/ours" || true)
  echo "$name: $n frames, $((n - r)) read alike in every field, $r of other kinds refused, $d differ"
  [ "$d" = 0 ] || diff "$work/ours" "$work/theirs" | head -6
  frames=$((frames + n))
  differ=$((differ + d))
done
echo "$frames frames, $differ differ"
[ "$differ" = 0 ]
