#!/bin/sh
# Makes a table of what runs by many seeds printed, and says what their mean is: summary.sh CSV [LINE] < RUNS
# RUNS are what pedrun batch, seeds.sh, parallel.sh or join.sh print, or parts of slurm.sh one after the other. The value of a run is its last
# printed line, or the one of number LINE, counted from 1; it must be an integer. The file CSV gets a line for each seed, with its value, which
# is empty where the run ended by a fault. On standard output come how many values there are, their mean, its standard error, and the interval
# that holds the expected value with 95% confidence, by Student's t. It is reckoned in floating point.
set -u

fail() {
  echo "summary.sh: $2" >&2
  exit "$1"
}

usage='usage: summary.sh CSV [LINE] < RUNS'
[ $# -eq 1 ] || [ $# -eq 2 ] || fail 2 "there are $# words and not 1 or 2; $usage"
csv=$1 line=${2:-last}
case $line in
  last) ;;
  '' | *[!0-9]* | 0*) fail 2 "LINE is no number from 1 on: $line; $usage" ;;
esac
[ ! -t 0 ] || fail 2 "what runs printed comes on standard input; $usage"

trap 'exit 129' HUP
trap 'exit 130' INT
trap 'exit 143' TERM
trap 'rm -rf "${folder-}"' EXIT
folder=$(mktemp -d) || fail 5 'a folder for the table could not be made'

# Values are kept as they stand, since they may have more digits than a number of awk.
LC_ALL=C awk -v line="$line" -v csv="$folder/csv" '
  function refuse(text) { print "summary.sh: " text > "/dev/stderr"; refused = 1; exit 1 }

  # Ends the run of the last seed, if there was one.
  function end_run() {
    if (seed == "") return
    if (faulty) { faults++; value = "" }
    else if (value == "") refuse("the run by seed " seed " printed " (line == "last" ? "nothing" : "no line of number " line))
    else if (value !~ /^-?[0-9]+$/) refuse("the value by seed " seed " is no integer: " value)
    else {
      count++
      change = value - mean
      mean += change / count
      squares += change * (value - mean)
    }
    print seed "," value > csv
    seed = ""
  }

  # How much of the t distribution lies between -t and t: the finite sums for a whole number of degrees of freedom.
  function between(t, degrees,   angle, term, sum, k) {
    angle = atan2(t, sqrt(degrees))
    term = degrees % 2 ? cos(angle) : 1
    for (k = degrees % 2 ? 3 : 2; k <= degrees; k += 2) { sum += term; term *= cos(angle) ^ 2 * (k - 1) / k }
    return degrees % 2 ? (angle + sin(angle) * sum) * 2 / atan2(0, -1) : sin(angle) * sum
  }

  # The t that has 95% between it and its negative. For many degrees of freedom it is a series about that of the normal distribution.
  function quantile(degrees,   low, high, middle, z) {
    z = 1.959963984540054
    if (degrees > 1000) return z + (z ^ 3 + z) / (4 * degrees) + (5 * z ^ 5 + 16 * z ^ 3 + 3 * z) / (96 * degrees ^ 2)
    low = z
    high = 13
    while (high - low > 1e-9) {
      middle = (low + high) / 2
      if (between(middle, degrees) < 0.95) low = middle
      else high = middle
    }
    return low
  }

  BEGIN { print "seed,value" > csv }
  /^part [0-9]+ of / {
    if (open) refuse("a part before line " NR " is not whole")
    open = 1
    next
  }
  /^end of part [0-9]+$/ { end_run(); open = 0; next }
  /^seed [0-9]+$/ {
    end_run()
    seed = $2
    if (seed in seen) refuse("seed " seed " stands twice, in line " NR)
    seen[seed]
    faulty = printed = 0
    value = ""
    next
  }
  seed == "" { refuse("line " NR " is of no seed: is this what batch prints?") }
  /^fault / { faulty = 1; next }
  /^(draw|new) / { next }
  { if (++printed == line || line == "last") value = $0 }
  END {
    if (!refused) end_run()
    if (!refused && open) refuse("the last part is not whole")
    if (!refused && count + faults == 0) refuse("there is no run")
    if (refused) exit 1
    if (count == 0) refuse("every run ended by a fault")
    error = count > 1 ? sqrt(squares / (count - 1) / count) : 0
    # As many digits as give three of the standard error.
    digits = 0
    if (error > 0) { digits = 2 - log(error) / log(10); digits = digits > int(digits) ? int(digits) + 1 : int(digits) }
    if (digits < 0) digits = 0
    form = "%." digits "f"
    print "count " count
    if (faults) print "faults " faults
    printf "mean " form "\n", mean
    if (count == 1) refuse("one value alone has no standard error")
    half = quantile(count - 1) * error
    printf "standard error " form "\n95%% interval " form " to " form "\n", error, mean - half, mean + half
  }' > "$folder/summary"
status=$?
[ ! -s "$folder/summary" ] || cp "$folder/csv" "$csv" || fail 5 "$csv can't be written"
cat "$folder/summary" || fail 5 'the summary could not be printed'
exit "$status"
