#!/bin/sh
# Draws how much faster more workers are, from the table that bench/run prints: speedup.sh MEASURED PICTURE
# MEASURED is what bench/run printed, or docs/PERFORMANCE.md; the first such table in it is read, and nothing else. PICTURE ends in .svg or
# .png. Scripts that take less than a thirtieth of a second are left out: they are over before all workers have begun.
set -u

fail() {
  echo "speedup.sh: $2" >&2
  exit "$1"
}

case ${2-} in
  *.svg) terminal=svg font=12 ;;
  *.png) terminal=pngcairo font=10 ;;
  *) fail 2 'usage: speedup.sh MEASURED PICTURE, with a PICTURE that ends in .svg or .png' ;;
esac
command -v gnuplot > /dev/null || fail 127 'there is no command gnuplot'
[ -f "$1" ] || fail 4 "there is no file $1"
here=$(cd "$(dirname "$0")" && pwd) || exit
trap 'rm -rf "${folder-}"' EXIT
folder=$(mktemp -d) || exit

# Of each script a block: its name, and lines of a number of workers and the time of serial over theirs. The fourth to the sixth cell of a
# row are those of 1, 2 and 4 workers, and a cell begins with its seconds. Nothing after the first such table is read.
awk -F ' *[|] *' '
  /^\| Script \| serial \| run, [0-9]+ workers? \|/ && !inside {
    inside = 1
    for (i = 4; i <= 6; i++) { split($i, words, " "); workers[i] = $i ~ /^run, / ? words[2] : words[1] }
    next
  }
  inside && !/^\|/ { exit }
  inside && $3 + 0 >= 1 / 30 && $2 !~ /^(plain|set|draw)$/ && !($2 in drawn) {
    drawn[$2] = 1
    if (blocks++) printf "\n\n"
    print "\"" $2 "\""
    for (i = 4; i <= 6; i++) { split($3, serial, " "); split($i, parallel, " "); print workers[i], serial[1] / parallel[1] }
  }
  END { exit !inside }' "$1" > "$folder/curves" || fail 1 "$1 has no table of bench/run, which begins: | Script | serial | run, 1 worker |"
blocks=$(grep -c '^"' "$folder/curves")
[ "$blocks" -gt 0 ] || fail 1 "the first table of bench/run in $1 has no script that takes a thirtieth of a second"
# The machine, its processors, its system and the day.
machine=$(grep -m 1 ' processors, ' "$1" | cut -d ';' -f 1,2 | sed "s/[\"'\\]//g")
gnuplot -e "data = '$folder/curves'; blocks = $blocks; machine = '$machine'" \
  -e "set terminal $terminal size 640,440 background rgb 'white' font 'sans-serif,$font'" "$here/speedup.gnuplot" > "$folder/picture" || fail 5 'gnuplot failed'
cp "$folder/picture" "$2"
