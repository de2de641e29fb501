# shellcheck shell=bash
# Completion of pedrun's words for bash. ./install puts it where bash-completion finds it; else: source completion/pedrun.bash

# The options of a command.
_pedrun_options() {
  case $1 in
    run) echo --seed --gamma --depth --budget --rounds --workers --show ;;
    serial) echo --seed --gamma --depth --budget --rounds --show ;;
    sim) echo --number --seed --gamma --depth --budget --rounds --workers --show ;;
    replay) echo --at --seed --gamma --depth --budget --rounds ;;
    hash) echo --at --seed --gamma --rounds ;;
    gen) echo --shape --size ;;
    stream) echo --at --count --seed --gamma --rounds --below ;;
    span) echo --seed --gamma --depth --budget --rounds ;;
    batch) echo --seeds --depth --budget --rounds --workers --show ;;
  esac
}

# The options of a command that may still be given, or its help.
_pedrun_left() {
  local command=$1 option
  shift
  if [ $# -eq 0 ]; then
    case $command in
      run | serial | sim | check | fmt | replay | hash | gen | stream | span | batch) echo --help ;;
    esac
  fi
  for option in $(_pedrun_options "$command"); do
    case " $* " in
      *" $option "*) continue ;;
      *" --seed "* | *" --gamma "*) [ "$option" = --seed ] || [ "$option" = --gamma ] && continue ;;
    esac
    echo "$option"
  done
}

_pedrun() {
  local word=${COMP_WORDS[COMP_CWORD]} before=${COMP_WORDS[COMP_CWORD - 1]} choices=
  COMPREPLY=()

  # The name of a file stands after a redirection.
  case $before in
    '<' | '>' | '>>' | '2>')
      compopt -o default
      return
      ;;
  esac
  if [ "$COMP_CWORD" -eq 1 ]; then
    choices='run serial sim check fmt replay hash gen stream span batch --help --version'
  elif [ $((COMP_CWORD % 2)) -eq 0 ]; then
    choices=$(_pedrun_left "${COMP_WORDS[1]}" "${COMP_WORDS[@]:2:COMP_CWORD-2}")
  else
    case $before in
      --show) choices='plain log' ;;
      --shape) choices='fib tree loop' ;;
      --workers) choices='1 2 4 8 16 32 64' ;;
      --depth) choices='256 512' ;;
      --budget) choices=1000000 ;;
      --rounds) choices=4 ;;
    esac
  fi
  mapfile -t COMPREPLY < <(compgen -W "$choices" -- "$word")
}

complete -F _pedrun pedrun
