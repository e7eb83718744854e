#!/bin/sh
# Writes the rows of `rds follow` into a file per hour, in a folder that it makes if necessary:
#   receiver | rds follow | examples/rotate.sh listings
# A row goes into the file of the hour in UTC in which it comes, such as listings/2026-11-24T15Z.csv. Rows stay whole, so no group is
# lost between two files. The files in order are the listing, which ends with the totals. A file that exists is appended to.
# --by takes another name, as `date` spells it, whose names have to sort by time: --by %Y-%m-%d is a file per day. If a row can't
# be written, it ends in status 1, and `rds follow` after it.
# Needs date.
usage='usage: rotate.sh [--by FORMAT] FOLDER < LISTING'
by=%Y-%m-%dT%HZ
if [ "${1-}" = --by ] && [ $# -gt 1 ]; then by=$2; shift 2; fi
case $#,${1-} in
  1,-* | 1, | [!1],*) echo "$usage" >&2; exit 2 ;;
esac
mkdir -p -- "$1" || exit 1
folder=$1

# write ROW END: a row, and what ends it, into the file of now
write() { name=$(date -u "+$by") && printf '%s%b' "$1" "$2" >> "$folder/$name.csv"; }

while IFS= read -r row; do
  write "$row" '\n' || exit 1
done
# A row that was cut off stays so.
[ -z "$row" ] || write "$row" ''
