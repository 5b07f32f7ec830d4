# Completion of nixkeep for bash: source this file, or install it as `nixkeep` in a folder of bash-completion.

_nixkeep() {
  local current=${COMP_WORDS[COMP_CWORD]} previous=${COMP_WORDS[COMP_CWORD - 1]}
  local subcommands='who text-path source-path ls add-text add-source import info cat-nar list live dead roots why report
    root unroot profile temp runtime gc delete serve help'
  local at subcommand='' words=0 offered=''
  COMPREPLY=()

  # What a word is depends on the option before it; `=` is a word of its own.
  [[ $current == '=' ]] && current=''
  [[ $previous == '=' ]] && previous=${COMP_WORDS[COMP_CWORD - 2]}
  case $previous in
    --db | --config)
      compopt -o filenames 2>/dev/null
      mapfile -t COMPREPLY < <(compgen -f -- "$current")
      return
      ;;
    --user | --owner)
      mapfile -t COMPREPLY < <(compgen -u -- "$current")
      return
      ;;
    --group)
      mapfile -t COMPREPLY < <(compgen -g -- "$current")
      return
      ;;
    --max-freed | --port | --connections) return ;;
  esac

  # The subcommand, and how many of its words precede this one.
  for ((at = 1; at < COMP_CWORD; at++)); do
    case ${COMP_WORDS[at]} in
      --db | --config | --user | --group | --owner | --max-freed | --port | --connections)
        [[ ${COMP_WORDS[at + 1]} == '=' ]] && ((at++))
        ((at++))
        ;;
      -*) ;;
      *) if [[ $subcommand ]]; then ((words++)); else subcommand=${COMP_WORDS[at]}; fi ;;
    esac
  done

  case $subcommand:$words in
    :0) offered="$subcommands --db --config --user --group --version" ;;
    help:0) offered=$subcommands ;;
    root:*) offered='--permanent' ;;
    unroot:*) offered='--permanent --owner' ;;
    profile:0) offered='set rollback switch delete --owner' ;;
    profile:*) offered='--owner' ;;
    temp:0) offered='add end --owner' ;;
    temp:*) offered='--owner' ;;
    gc:*) offered='--ignore-liveness --max-freed' ;;
    delete:*) offered='--ignore-liveness' ;;
    serve:*) offered='--port --connections' ;;
  esac
  mapfile -t COMPREPLY < <(compgen -W "$offered --help" -- "$current")
}

complete -F _nixkeep nixkeep
