#!/bin/sh
# Runs a script by each seed from FIRST to LAST, in this order, on this machine: seeds.sh SCRIPT FIRST LAST
# Each run is headed by a line with its seed. A run that ends by a fault is a result too. One process runs a batch of up to 256 seeds, or of
# as many as BATCH says. Any other failure ends all with its status, and nothing of that batch is printed. PEDRUN names the program, by
# default pedrun on the PATH; WORKERS are those of a batch, by default 1.
set -u

fail() {
  echo "seeds.sh: $2" >&2
  exit "$1"
}

usage() { fail 2 "$1; usage: seeds.sh SCRIPT FIRST LAST, with seeds from 0 to 9223372036854775806"; }

# Whether a word is a number in the program's form, which the shell can count.
is_number() {
  case $1 in '' | *[!0-9]* | 0?*) return 1 ;; esac
  [ "$1" -lt 9223372036854775807 ] 2>/dev/null
}

[ $# -eq 3 ] || usage "there are $# words and not 3"
script=$1 first=$2 last=$3 pedrun=${PEDRUN:-pedrun} batch=${BATCH:-256}
is_number "$first" || usage "FIRST is no seed: $first"
is_number "$last" || usage "LAST is no seed: $last"
[ "$first" -le "$last" ] || usage "FIRST is above LAST"
{ is_number "$batch" && [ "$batch" -gt 0 ] && [ "$batch" -le 256 ]; } || fail 2 "BATCH is no number of seeds from 1 to 256: $batch"
[ -f "$script" ] || fail 4 "there is no file $script"
[ -r "$script" ] || fail 4 "$script can't be read"
command -v "$pedrun" > /dev/null || fail 127 "there is no program $pedrun: put it on the PATH, or name it by PEDRUN"

trap 'exit 129' HUP
trap 'exit 130' INT
trap 'exit 143' TERM
trap 'rm -rf "${folder-}"' EXIT
folder=$(mktemp -d) || fail 5 'a folder for a run could not be made'

# The seeds from one to another, joined by commas.
list() {
  seed=$1
  while [ "$seed" -lt "$2" ]; do
    printf '%s,' "$seed"
    seed=$((seed + 1))
  done
  printf '%s' "$2"
}

from=$first
while :; do
  to=$last
  [ $((last - from)) -lt "$batch" ] || to=$((from + batch - 1))
  what="the batch of seeds $from to $to"
  # Where the shell can't open the script, it runs nothing, and the status stays.
  status=4
  { "$pedrun" batch --seeds "$(list "$from" "$to")" --workers "${WORKERS:-1}" > "$folder/runs"; status=$?; } < "$script"
  # Only a fault's status 1 comes with a fault's line.
  case $status in
    0) ;;
    1) grep -q '^fault ' "$folder/runs" || fail 1 "$what ended with status 1, and not by a fault: is $pedrun the program?" ;;
    *) fail "$status" "$what ended with status $status" ;;
  esac
  [ "$(grep -c '^seed ' "$folder/runs")" = $((to - from + 1)) ] || fail 1 "$what doesn't have a run by each of them: is $pedrun the program?"
  cat "$folder/runs" || fail 5 "$what could not be printed"
  [ "$to" -lt "$last" ] || break
  from=$((to + 1))
done
