#!/bin/sh
# Turns a log of dropped samples into the option --gaps. The log has lines `start length`, in bits from 0:
#   gaps=$(examples/gaps.sh < dropped.log) && rds list $gaps < recording.bin > listing.csv
# A gap marks filler: bits that the receiver wrote instead of the ones that it dropped. If it wrote none, there is nothing to mark,
# and a gap would hide good bits. Decode such a recording without --gaps: sync is lost and acquired again, and every time after
# the drop is early by its length.
# Lines may be in any order, and those that overlap or touch become one gap. If nothing was dropped, nothing is written. If a line is
# no such pair, the script fails, and `&&` keeps rds from listing without the gaps. An argument has at most about 131,000
# characters, some 6,000 gaps.
# Needs awk.
[ $# = 0 ] || { echo 'usage: gaps.sh < LOG' >&2; exit 2; }
lines=$(sort -n) || exit 1
printf '%s\n' "$lines" | awk '
  function close_gap() { if (end > begin) { text = text sep sprintf("%.0f-%.0f", begin, end); sep = "," } }
  !NF { next }
  NF != 2 || $1 !~ /^[0-9]+$/ || $2 !~ /^[0-9]+$/ {
    print "gaps: \"" $0 "\" is not a start and a length" > "/dev/stderr"
    failed = 1
    exit 2
  }
  $1 + 0 > end + 0 { close_gap(); begin = $1; end = $1 }
  $1 + $2 > end + 0 { end = $1 + $2 }
  END { if (failed) exit 2; close_gap(); if (text != "") print "--gaps=" text }'
