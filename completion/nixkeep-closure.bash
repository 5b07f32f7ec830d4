# bash completion for nixkeep-closure

# Adds names of files. bash quotes them, so that nothing in them is run.
_nixkeep_closure_files() {
  local found
  mapfile -t found < <(compgen -f -- "$current")
  [[ ${#found[@]} -eq 0 ]] || compopt -o filenames 2>/dev/null
  COMPREPLY+=("${found[@]}")
}

_nixkeep_closure() {
  local current=${COMP_WORDS[COMP_CWORD]} previous=${COMP_WORDS[COMP_CWORD - 1]} word action='' words=''
  COMPREPLY=()
  [[ $current != '=' ]] || current=''
  [[ $previous != '=' ]] || previous=${COMP_WORDS[COMP_CWORD - 2]}
  for word in "${COMP_WORDS[@]:1:COMP_CWORD-1}"; do
    case $word in push | pull | copy) action=$word ;; esac
  done
  case $previous in
    --db | --config | --credentials | --ca | --program | --to-config)
      _nixkeep_closure_files
      return
      ;;
    --to)
      mapfile -t COMPREPLY < <(compgen -W 'http:// https:// unix:/' -- "$current")
      _nixkeep_closure_files
      return
      ;;
    --server)
      mapfile -t COMPREPLY < <(compgen -W 'http:// https:// unix:/' -- "$current")
      return
      ;;
    --as | --me)
      mapfile -t COMPREPLY < <(compgen -u -- "$current")
      return
      ;;
    --nix-store)
      mapfile -t COMPREPLY < <(compgen -W 'daemon local' -- "$current")
      return
      ;;
    --session) return ;;
    --root | --profile)
      [[ $action != pull ]] || _nixkeep_closure_files
      return
      ;;
    --permanent) return ;;
  esac
  case $action in
    '') words='--server --db --config --as --me --credentials --ca --nix-store --program --session --dry-run --version --help push pull copy' ;;
    push) words='--root --permanent --profile --help' ;;
    pull) words='--root --profile --help' ;;
    copy) words='--to --to-config --root --permanent --profile --help' ;;
  esac
  mapfile -t COMPREPLY < <(compgen -W "$words" -- "$current")
  [[ -z $action ]] || _nixkeep_closure_files
}

complete -F _nixkeep_closure nixkeep-closure
