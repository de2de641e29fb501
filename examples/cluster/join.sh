#!/bin/sh
# Prints the parts that the tasks of slurm.sh left, in the order of the seeds: join.sh FOLDER TASKS
# It prints nothing where a part is missing, or where the parts aren't one range of seeds of one script, and says which.
set -u

fail() {
  echo "join.sh: $2" >&2
  exit "$1"
}

[ $# -eq 2 ] || fail 2 "there are $# words and not 2; usage: join.sh FOLDER TASKS"
folder=$1 tasks=$2
case $tasks in '' | *[!0-9]* | 0*) fail 2 "TASKS is no number of tasks: $tasks; usage: join.sh FOLDER TASKS" ;; esac
[ -d "$folder" ] || fail 2 "there is no folder $folder"

missing='' task=0
while [ "$task" -lt "$tasks" ]; do
  [ -f "$folder/part-$task" ] || missing="$missing $task"
  task=$((task + 1))
done
[ -z "$missing" ] || fail 1 "run these tasks again:$missing"
for part in "$folder"/part-*; do
  case ${part##*/part-} in
    0 | [1-9] | [1-9]*[0-9]) [ "${part##*/part-}" -lt "$tasks" ] && continue ;;
  esac
  fail 1 "$part isn't one of $tasks parts: join all that the array had, or take a folder for each array"
done

# Each part says which it is of how many, of which seeds of which script, and from which seed to which it goes. All but the last two words
# are the same for all, each part goes on after the one before it, and it has as many runs as seeds.
task=0 next='' all='' last=''
while [ "$task" -lt "$tasks" ]; do
  part=$folder/part-$task
  head=$(head -n 1 "$part") || fail 1 "$part can't be read"
  rest=${head#"part $task of $tasks of seeds "}
  of=${rest%%: *} range=${rest#*: }
  if [ "$rest" = "$head" ] || [ "$rest" != "$of: $range" ]; then fail 1 "$part doesn't say that it is part $task of $tasks: \"$head\""; fi
  from=${range%% to *} to=${range##* to }
  if [ -z "$all" ]; then
    all=$of next=${of%% to *} last=${of#* to } last=${last%% *}
  fi
  [ "$of" = "$all" ] || fail 1 "$part is of seeds $of, and the parts before it of seeds $all"
  [ "$from" = "$next" ] || fail 1 "$part begins with seed $from in place of $next"
  next=$((to + 1))
  [ "$(tail -n 1 "$part")" = "end of part $task" ] || fail 1 "$part isn't whole: run task $task again"
  [ "$(grep -c '^seed ' "$part")" = $((next - from)) ] || fail 1 "$part doesn't have the runs by seeds $from to $to"
  task=$((task + 1))
done
[ "$next" = $((last + 1)) ] || fail 1 "the parts end before seed $next and not with $last"

task=0
while [ "$task" -lt "$tasks" ]; do
  sed '1d;$d' "$folder/part-$task" || fail 5 "$folder/part-$task could not be printed"
  task=$((task + 1))
done
