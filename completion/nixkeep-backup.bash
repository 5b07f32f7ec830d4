# bash completion for nixkeep-backup

# Adds names of files, or of what `compgen` is asked for in their place. bash quotes them, so that nothing in them is run.
_nixkeep_backup_files() {
  local found
  mapfile -t found < <(compgen "${1:--f}" -- "$current")
  [[ ${#found[@]} -eq 0 ]] || compopt -o filenames 2>/dev/null
  COMPREPLY+=("${found[@]}")
}

_nixkeep_backup() {
  local current=${COMP_WORDS[COMP_CWORD]} previous=${COMP_WORDS[COMP_CWORD - 1]} word action='' words=''
  COMPREPLY=()
  [[ $current != '=' ]] || current=''
  [[ $previous != '=' ]] || previous=${COMP_WORDS[COMP_CWORD - 2]}
  for word in "${COMP_WORDS[@]:1:COMP_CWORD-1}"; do
    case $word in check | copy | fetch | restore | before-migration) action=$word ;; esac
  done
  case $previous in
    --db | --config | --program | --note | --state | --credentials | --ca)
      _nixkeep_backup_files
      return
      ;;
    --to | --folder)
      _nixkeep_backup_files -d
      return
      ;;
    --server)
      mapfile -t COMPREPLY < <(compgen -W 'http:// https:// unix:/' -- "$current")
      return
      ;;
    --as)
      mapfile -t COMPREPLY < <(compgen -u -- "$current")
      return
      ;;
    --unit | --seconds) return ;;
  esac
  case $action in
    '') words='check copy fetch restore before-migration' ;;
    check) words='--db --server --unit --note --config --program' ;;
    copy) words='--db --to --note --state --seconds --config --program' ;;
    fetch) words='--server --to --as --credentials --ca --state --seconds --config --program' ;;
    restore) words='--folder --config --program' ;;
    before-migration) words='--db --config --program' ;;
  esac
  mapfile -t COMPREPLY < <(compgen -W "$words --version --help" -- "$current")
  [[ $action != restore ]] || _nixkeep_backup_files
}

complete -F _nixkeep_backup nixkeep-backup
