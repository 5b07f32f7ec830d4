# bash completion for nixkeep-explain

_nixkeep_explain() {
  local current=${COMP_WORDS[COMP_CWORD]} previous=${COMP_WORDS[COMP_CWORD - 1]}
  COMPREPLY=()
  compopt -o filenames 2>/dev/null
  if [[ $previous == --rescue ]]; then
    mapfile -t COMPREPLY < <(compgen -d -- "$current")
  elif [[ $current == -* && $previous != --config ]]; then
    mapfile -t COMPREPLY < <(compgen -W '--config --log --usage --rescue --version --help' -- "$current")
  else
    mapfile -t COMPREPLY < <(compgen -f -- "$current")
  fi
}

complete -F _nixkeep_explain nixkeep-explain
