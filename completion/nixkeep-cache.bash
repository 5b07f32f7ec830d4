# Completion of nixkeep-cache for bash.
_nixkeep_cache() {
  local word=${COMP_WORDS[COMP_CWORD]} before=${COMP_WORDS[COMP_CWORD - 1]}
  local more="--user --group --proxied --db --nixkeep --store --listen --config --most-bytes --most-bytes-each --monitor \
    --backup-state --sign-with --trusted-public-keys --waiting \
    --waiting-count --waiting-bytes --waiting-seconds --blobs --large-from --blobs-level --blobs-endpoint --grace \
    --session-seconds --idle --patience --list-every --version --help"
  case ${COMP_WORDS[1]} in
    sweep) more="--server --user --config --grace --dry-run --help" ;;
    verify) more="--server --user --config --blobs --blobs-endpoint --help" ;;
    *) ((COMP_CWORD > 1)) || more="sweep verify $more" ;;
  esac
  COMPREPLY=()
  case $before in
    --config | --db | --nixkeep | --listen | --sign-with | --backup-state)
      compopt -o filenames 2>/dev/null
      mapfile -t COMPREPLY < <(compgen -f -- "$word")
      ;;
    --waiting | --blobs)
      compopt -o filenames 2>/dev/null
      mapfile -t COMPREPLY < <(compgen -d -- "$word")
      ;;
    --user | --monitor) mapfile -t COMPREPLY < <(compgen -u -- "$word") ;;
    --group) mapfile -t COMPREPLY < <(compgen -g -- "$word") ;;
    --store | --server | --most-bytes* | --waiting-* | --large-from | --blobs-* | --grace | --session-seconds | --idle) ;;
    --trusted-public-keys | --patience | --list-every) ;;
    *) mapfile -t COMPREPLY < <(compgen -W "$more" -- "$word") ;;
  esac
}
complete -F _nixkeep_cache nixkeep-cache
