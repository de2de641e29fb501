#!/bin/sh
# Draws how often pi.ped estimates what, over many seeds: histogram.sh PICTURE [SEEDS]
# PICTURE ends in .svg or .png. SEEDS is how many seeds from 1 on, by default 1000. PEDRUN names the program, by default pedrun on the PATH;
# WORKERS are those of a batch, by default one for each processor.
set -u

fail() {
  echo "histogram.sh: $2" >&2
  exit "$1"
}

case ${1-} in
  *.svg) terminal=svg font=12 ;;
  *.png) terminal=pngcairo font=10 ;;
  *) fail 2 'usage: histogram.sh PICTURE [SEEDS], with a PICTURE that ends in .svg or .png' ;;
esac
command -v gnuplot > /dev/null || fail 127 'there is no command gnuplot'
here=$(cd "$(dirname "$0")" && pwd) || exit
seeds=${2:-1000}
# A batch has 64 workers at most.
workers=$(nproc 2> /dev/null || echo 1)
[ "$workers" -le 64 ] || workers=64
export WORKERS="${WORKERS:-$workers}"
trap 'rm -rf "${folder-}"' EXIT
folder=$(mktemp -d) || exit

"$here/../cluster/seeds.sh" "$here/../pi.ped" 1 "$seeds" > "$folder/runs" || exit
# The third line of a run is pi times 10000.
awk '/^seed / { seed = $2; line = 0 } { line++ } line == 3 { print seed, $1 / 10000 }' "$folder/runs" > "$folder/estimates"
[ "$(wc -l < "$folder/estimates")" -eq "$seeds" ] || fail 1 'a run printed something else than two numbers'
gnuplot -e "data = '$folder/estimates'; seeds = $seeds" -e "set terminal $terminal size 640,400 background rgb 'white' font 'sans-serif,$font'" \
  "$here/histogram.gnuplot" > "$folder/picture" || fail 5 'gnuplot failed'
cp "$folder/picture" "$1"
