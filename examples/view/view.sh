#!/bin/sh
# Makes a page on which one looks at a run, to be opened in a browser: view.sh [SCRIPT [--OPTION VALUE]..] < LOG > PAGE
# LOG is what pedrun run, serial, sim or batch prints with --show log. PAGE is one HTML file that takes nothing from the network. It shows the
# names of draws and objects as a tree that opens and closes, what was drawn and printed, and the fault, finds a name, and has the call that
# replays a strand. SCRIPT and the options of the run, such as --seed 1, are for that call; they can be changed on the page too.
# ./pedrun run --seed 1 --show log < examples/midpoint.ped | examples/view/view.sh examples/midpoint.ped --seed 1 > midpoint.html
set -u

fail() {
  echo "view.sh: $2" >&2
  exit "$1"
}

usage='usage: view.sh [SCRIPT [--OPTION VALUE]..] < LOG > PAGE'
script=${1-script.ped} options=''
[ $# -eq 0 ] || shift
case $script in -*) fail 2 "the script stands before the options, and not $script; $usage" ;; esac
while [ $# -gt 0 ]; do
  case $1 in
    --*) [ $# -gt 1 ] || fail 2 "the option $1 has no value; $usage" ;;
    *) fail 2 "an option begins with --, and not as $1; $usage" ;;
  esac
  # A replay takes the others.
  case $1 in
    --workers | --show | --number | --seeds) ;;
    *) options="$options${options:+ }$1 $2" ;;
  esac
  shift 2
done
[ ! -t 0 ] || fail 2 "the log comes on standard input; $usage"
here=$(cd "$(dirname "$0")" && pwd) || exit
[ -r "$here/page.html" ] || fail 4 "there is no $here/page.html"

trap 'exit 129' HUP
trap 'exit 130' INT
trap 'exit 143' TERM
trap 'rm -rf "${folder-}"' EXIT
folder=$(mktemp -d) || fail 5 'a folder for the log could not be made'

# Only lines of a log go into the page, so it needs no further care.
LC_ALL=C awk '
  /^draw [0-9.]+ = [0-9]+$/ || /^new [0-9.]+$/ || /^seed [0-9]+$/ || /^fault [0-9.]+: [a-z ]+$/ || /^-?[0-9]+(\.[0-9]+)*$/ { print; next }
  /^worker [0-9]+$/ { next }
  { print "view.sh: line " NR " is none of a log: " substr($0, 1, 60) > "/dev/stderr"; exit 1 }
' > "$folder/log" || exit 1
grep -qE '^(draw|new|fault) ' "$folder/log" || echo 'view.sh: there is no draw, object or fault: was it a run with --show log?' >&2

escaped() { printf '%s' "$1" | sed 's/&/\&amp;/g; s/</\&lt;/g; s/"/\&quot;/g'; }
{
  sed '/^@words@$/,$d' "$here/page.html" &&
    printf '<label>Options of the run <input id="options" size="16" value="%s"></label>\n<label>Script <input id="script" size="24" value="%s"></label>\n' \
      "$(escaped "$options")" "$(escaped "$script")" &&
    sed '1,/^@words@$/d; /^@log@$/,$d' "$here/page.html" &&
    cat "$folder/log" &&
    sed '1,/^@log@$/d' "$here/page.html"
} || fail 5 'the page could not be written'
