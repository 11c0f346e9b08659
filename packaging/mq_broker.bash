# Completes commands, options and values of mq_broker in bash. It asks the program itself for its help, so that it knows what that one knows.

# The words that may stand here, by the help of this program: $1, the command: $2, the word before: $3.
_mq_broker_words() {
  local row
  if [[ -z $2 ]]; then
    "$1" --help </dev/null 2>/dev/null | sed -n '/^commands:/,/^$/s/^  \([a-z_-]*\) .*/\1/p'
    echo "--help --version"
    return
  fi
  row=$("$1" "$2" --help </dev/null 2>/dev/null | sed -n "s/^  $3 \([^ ]*\) .*/\1/p")
  case $3:$row in
    --*:?*"|"*) echo "${row//|/ }" ;;
    --*:DIR) echo DIR ;;
    --*:?*) ;;
    *)
      "$1" "$2" --help </dev/null 2>/dev/null | sed -n 's/^  \(--[a-z-]*\) .*/\1/p'
      [[ $3 != "$2" ]] || echo "--help"
      ;;
  esac
}

_mq_broker() {
  local word=${COMP_WORDS[COMP_CWORD]} command= before= words given
  COMPREPLY=()
  command -v -- "$1" >/dev/null || return 0
  if ((COMP_CWORD > 1)); then
    command=${COMP_WORDS[1]}
    before=${COMP_WORDS[COMP_CWORD - 1]}
  fi
  words=" $(_mq_broker_words "$1" "$command" "$before" | tr '\n' ' ')"
  if [[ $words == " DIR " ]]; then
    compopt -o filenames 2>/dev/null
    mapfile -t COMPREPLY < <(compgen -d -- "$word")
    return 0
  fi
  # Each option is given at most once.
  for given in "${COMP_WORDS[@]:1:COMP_CWORD-1}"; do
    [[ $given != --* ]] || words=${words// $given / }
  done
  mapfile -t COMPREPLY < <(compgen -W "$words" -- "$word")
}

complete -F _mq_broker mq_broker
