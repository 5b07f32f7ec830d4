# Completion of nixkeep-overview for bash.
_nixkeep_overview() {
  local word=${COMP_WORDS[COMP_CWORD]} before=${COMP_WORDS[COMP_CWORD - 1]}
  COMPREPLY=()
  case $before in
    --db | --config | --output)
      compopt -o filenames 2>/dev/null
      mapfile -t COMPREPLY < <(compgen -f -- "$word")
      ;;
    --user) mapfile -t COMPREPLY < <(compgen -u -- "$word") ;;
    --group) mapfile -t COMPREPLY < <(compgen -g -- "$word") ;;
    --store | --name | --why) ;;
    *)
      mapfile -t COMPREPLY < <(compgen -W "--db --store --user --group --config --name --why --output --version --help" -- "$word")
      ;;
  esac
}
complete -F _nixkeep_overview nixkeep-overview
