#!/bin/sh
# Runs a script by each seed from FIRST to LAST on many machines, by GNU parallel: parallel.sh SCRIPT FIRST LAST [LOGINS]
# It prints what seeds.sh prints on one machine, in the order of the seeds. LOGINS are those of parallel's --sshlogin, such as
# 8/alpha,16/beta; by default this machine. The program, this folder and the script stand at the same paths on all of them.
# EACH is how many seeds a job takes, by default 16; BATCH and WORKERS are as for seeds.sh. What fails is tried again elsewhere, three times in all.
set -u

fail() {
  echo "parallel.sh: $2" >&2
  exit "$1"
}

usage() { fail 2 "$1; usage: parallel.sh SCRIPT FIRST LAST [LOGINS], with seeds from 0 to 9223372036854775806"; }

# Whether a word is a number in the program's form, which the shell can count.
is_number() {
  case $1 in '' | *[!0-9]* | 0?*) return 1 ;; esac
  [ "$1" -lt 9223372036854775807 ] 2>/dev/null
}

# A word as one word of a shell's command line.
quoted() { printf "'%s'" "$(printf %s "$1" | sed "s/'/'\\\\''/g")"; }

[ $# -eq 3 ] || [ $# -eq 4 ] || usage "there are $# words and not 3 or 4"
first=$2 last=$3 logins=${4:-:} each=${EACH:-16}
is_number "$first" || usage "FIRST is no seed: $first"
is_number "$last" || usage "LAST is no seed: $last"
[ "$first" -le "$last" ] || usage "FIRST is above LAST"
{ is_number "$each" && [ "$each" -gt 0 ]; } || fail 2 "EACH is no number of seeds: $each"
[ -f "$1" ] || fail 4 "there is no file $1"
pedrun=$(command -v "${PEDRUN:-pedrun}") || fail 127 "there is no program ${PEDRUN:-pedrun}: put it on the PATH, or name it by PEDRUN"
# By ssh a job begins in the home folder, so a relative path would lead elsewhere.
case $pedrun in
  /*) ;;
  *) [ "$logins" = : ] || fail 2 "PEDRUN must begin with / where jobs go to other machines: $pedrun" ;;
esac
command -v parallel > /dev/null || fail 127 'there is no command parallel: install GNU parallel'
if ! script=$(realpath "$1") || ! here=$(cd "$(dirname "$0")" && pwd); then fail 4 "$1 or the folder of parallel.sh can't be found"; fi

trap 'exit 129' HUP
trap 'exit 130' INT
trap 'exit 143' TERM
trap 'rm -rf "${folder-}"' EXIT
folder=$(mktemp -d) || fail 5 'a folder for the status could not be made'

# The first and the last seed of each job.
jobs() {
  from=$first
  while [ $((last - from)) -ge "$each" ]; do
    echo "$from $((from + each - 1))"
    from=$((from + each))
  done
  echo "$from $last"
}

# Prints all that the jobs print, in the order of the seeds, and leaves parallel's status in the folder.
run() {
  jobs | parallel --keep-order --colsep ' ' --retries 3 --halt soon,fail=1 --sshlogin "$logins" \
    env "PEDRUN=$(quoted "$pedrun")" "WORKERS=$(quoted "${WORKERS:-1}")" "BATCH=$(quoted "${BATCH:-256}")" "$(quoted "$here/seeds.sh")" "$(quoted "$script")" '{1}' '{2}'
  echo "$?" > "$folder/status"
}

run | awk -v seeds=$((last - first + 1)) '
  { print }
  /^seed / { seen++ }
  END { exit seen + 0 != seeds }'
counted=$?
status=$(cat "$folder/status")
[ "$status" = 0 ] || fail "${status:-1}" "parallel ended with status ${status:-unknown}"
[ "$counted" -eq 0 ] || fail 1 'runs are missing'
