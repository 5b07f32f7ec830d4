# bash completion for nixkeep-remote

# Prints the words that may stand for a store path: paths of the server, where one is named and answers soon. `compgen -W` runs
# what a word contains, such as `$(..)`, so only lines pass that have the characters of store paths and no others. It takes long for very
# many, so these are the paths that have what was typed, and the first 20,000 of a server that lists without an end.
_nixkeep_remote_paths() {
  timeout 2 nixkeep-remote "${options[@]}" list 2>/dev/null </dev/null |
    LC_ALL=C grep -aEx '(/[0-9A-Za-z+._?=-]+)+' | LC_ALL=C grep -aF -- "$current" | head -n 20000
}

# Sets `command` to the subcommand, `values` to the values after it, and `options` to the options before it.
_nixkeep_remote_words() {
  local at line=()
  # bash divides words at `:` and `=`.
  for ((at = 1; at < COMP_CWORD; at++)); do
    if [[ ${COMP_WORDS[at]} == [:=]* && ${#line[@]} -gt 0 ]]; then
      line[-1]+=${COMP_WORDS[at]}
      ((at + 1 == COMP_CWORD)) || line[-1]+=${COMP_WORDS[++at]}
    else
      line+=("${COMP_WORDS[at]}")
    fi
  done
  command='' values=() options=()
  for ((at = 0; at < ${#line[@]}; at++)); do
    case ${command:+sub}${line[at]} in
      --server | --as | --me | --credentials | --ca | --store-dir)
        options+=("${line[at]}" "${line[at + 1]}")
        ((at++))
        ;;
      -*) options+=("${line[at]}") ;;
      sub--owner | sub--max-freed) ((at++)) ;;
      sub-*) ;;
      sub*) values+=("${line[at]}") ;;
      *) command=${line[at]} ;;
    esac
  done
}

_nixkeep_remote() {
  local current=${COMP_WORDS[COMP_CWORD]} previous=${COMP_WORDS[COMP_CWORD - 1]} command values options words=''
  COMPREPLY=()
  [[ $current != '=' ]] || current=''
  [[ $previous != '=' ]] || previous=${COMP_WORDS[COMP_CWORD - 2]}
  case $previous in
    --credentials | --ca)
      compopt -o filenames 2>/dev/null
      mapfile -t COMPREPLY < <(compgen -f -- "$current")
      return
      ;;
    --store-dir)
      compopt -o filenames 2>/dev/null
      mapfile -t COMPREPLY < <(compgen -d -- "$current")
      return
      ;;
    --server)
      mapfile -t COMPREPLY < <(compgen -W 'http:// https:// unix:/' -- "$current")
      return
      ;;
    --as | --me | --owner)
      mapfile -t COMPREPLY < <(compgen -u -- "$current")
      return
      ;;
    --max-freed) return ;;
  esac
  _nixkeep_remote_words
  case $command in
    '')
      words='--server --as --me --credentials --ca --store-dir --version --help who ls import runtime list roots live dead report
        text-path source-path add-text add-source info cat-nar why root unroot profile temp gc delete help'
      ;;
    help)
      words='who ls import runtime list roots live dead report text-path source-path add-text add-source info cat-nar why
        root unroot profile temp gc delete help'
      ;;
    info | cat-nar | why) [[ ${#values[@]} -gt 0 ]] || words=$(_nixkeep_remote_paths) ;;
    text-path | source-path | add-text | add-source) [[ ${#values[@]} -eq 0 ]] || words=$(_nixkeep_remote_paths) ;;
    root)
      words=--permanent
      [[ ${#values[@]} -ne 1 ]] || words+=" $(_nixkeep_remote_paths)"
      ;;
    unroot) words='--permanent --owner' ;;
    profile)
      words=--owner
      [[ ${#values[@]} -ne 0 ]] || words+=' set rollback switch delete'
      [[ ${#values[@]} -ne 2 || ${values[0]} != set ]] || words+=" $(_nixkeep_remote_paths)"
      ;;
    temp)
      words=--owner
      [[ ${#values[@]} -ne 0 ]] || words+=' add end'
      [[ ${#values[@]} -ne 2 || ${values[0]} != add ]] || words+=" $(_nixkeep_remote_paths)"
      ;;
    gc) words='--ignore-liveness --max-freed' ;;
    delete) words="--ignore-liveness $(_nixkeep_remote_paths)" ;;
  esac
  [[ -z $command ]] || words+=' --help'
  mapfile -t COMPREPLY < <(compgen -W "$words" -- "$current")
}

complete -F _nixkeep_remote nixkeep-remote
