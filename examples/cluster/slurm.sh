#!/bin/sh
#SBATCH --job-name=seeds
#SBATCH --array=0-9
#SBATCH --cpus-per-task=1
#SBATCH --output=seeds-%a.log
# Runs a script by each seed from FIRST to LAST, as the tasks of a Slurm job array. Where the program was installed, from the top:
#   sbatch --array=0-9 examples/cluster/slurm.sh SCRIPT FIRST LAST FOLDER
# The tasks are numbered from 0, and task k takes the k-th part of the seeds. It leaves what it printed in FOLDER/part-k, between a line
# that says which part of what it is and a line that ends it, once all of it is there. When the array has ended, join.sh puts the parts
# together. To run some tasks again, give TASKS, the number of all of them. PEDRUN, WORKERS and BATCH are as for seeds.sh. CLUSTER names the
# folder of seeds.sh, by default examples/cluster where the array was submitted.
set -u

fail() {
  echo "slurm.sh: $2" >&2
  exit "$1"
}

usage() { fail 2 "$1; usage: sbatch --array=0-LASTTASK slurm.sh SCRIPT FIRST LAST FOLDER, with seeds from 0 to 9223372036854775806"; }

# Whether a word is a number in the program's form, which the shell can count.
is_number() {
  case $1 in '' | *[!0-9]* | 0?*) return 1 ;; esac
  [ "$1" -lt 9223372036854775807 ] 2>/dev/null
}

[ $# -eq 4 ] || usage "there are $# words and not 4"
script=$1 first=$2 last=$3 folder=$4
is_number "$first" || usage "FIRST is no seed: $first"
is_number "$last" || usage "LAST is no seed: $last"
[ "$first" -le "$last" ] || usage "FIRST is above LAST"
[ -f "$script" ] || fail 4 "there is no file $script"

# Slurm runs a copy of this file, so seeds.sh is found from where the array was submitted.
seeds=${CLUSTER:-${SLURM_SUBMIT_DIR:-.}/examples/cluster}/seeds.sh
[ -x "$seeds" ] || fail 2 "there is no $seeds: submit at the top of the repository, or name the folder of seeds.sh by CLUSTER"

task=${SLURM_ARRAY_TASK_ID-}
is_number "$task" || usage 'this is no task of a job array'
tasks=${TASKS:-${SLURM_ARRAY_TASK_COUNT-}}
{ is_number "$tasks" && [ "$tasks" -gt 0 ] && [ "$tasks" -le 1000000000 ]; } || usage "TASKS is no number of tasks: $tasks"
# Some tasks alone know nothing of the others, so they would take other seeds than before.
if [ -z "${TASKS-}" ] && [ "${SLURM_ARRAY_TASK_MIN:-0}-${SLURM_ARRAY_TASK_MAX:-$((tasks - 1))}" != "0-$((tasks - 1))" ]; then
  fail 2 "the array isn't 0-$((tasks - 1)): number all tasks from 0, or give TASKS, the number of all, to run some again"
fi
[ "$task" -lt "$tasks" ] || fail 2 "there is no task $task of $tasks: they are numbered from 0"

workers=${WORKERS:-1}
is_number "$workers" || fail 2 "WORKERS is no number of workers: $workers"
[ "$workers" -le "${SLURM_CPUS_PER_TASK:-1}" ] || fail 2 "WORKERS=$workers needs sbatch --cpus-per-task=$workers"

# Where the k-th of so many parts begins: at FIRST + COUNT * k / TASKS, by no product that could be too large.
each=$(((last - first + 1) / tasks)) left=$(((last - first + 1) % tasks))
start_of() { echo $((first + each * $1 + left * $1 / tasks)); }
from=$(start_of "$task")
to=$(($(start_of $((task + 1))) - 1))

sum=$(cksum < "$script") || fail 4 "$script can't be read"
all="$tasks of seeds $first to $last of the script $sum"
mkdir -p "$folder" || fail 5 "$folder can't be made"
# The parts that are there already are of the same array; join.sh looks at all of them.
for part in "$folder/part-$task" "$folder"/part-*; do
  [ -f "$part" ] || continue
  case $(head -n 1 "$part") in
    "part ${part##*/part-} of $all: "*) break ;;
    *) fail 2 "$part isn't a part of $all: take another folder, or give the same script, seeds and TASKS as before" ;;
  esac
done

begun=$folder/begun-$task.${SLURM_JOB_ID:-$$}
{
  echo "part $task of $all: $from to $to" &&
    # Of more tasks than seeds some have none.
    { [ "$from" -gt "$to" ] || "$seeds" "$script" "$from" "$to"; } &&
    echo "end of part $task"
} > "$begun" || fail "$?" "part $task isn't whole; what there is of it is in $begun"
mv "$begun" "$folder/part-$task" || fail 5 "$folder/part-$task can't be put in place"
