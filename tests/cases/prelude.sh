# shellcheck shell=bash disable=SC2034,SC2154 # (the cases use the variables, and their runner sets some)
# What more than one case uses. The case runner reads it before the steps of each; a case may define a name anew.

# `as USER WORD..`: a command over the file store.db of the case, with its configuration.
as() {
  user=$1
  shift
  nixkeep --db store.db --config store.toml --user "$user" --group users "$@"
}

# `by USER WORD..`: the same without a configuration, so that root alone is trusted.
by() {
  user=$1
  shift
  nixkeep --db store.db --user "$user" "$@"
}

# `digits DIGIT`: a path of 32 equal digits, without its name; `$p0` to `$p9` are these.
digits() { printf '/nix/store/%032d' 0 | sed "s/0/$1/g"; }
for digit in {0..9}; do
  printf -v "p$digit" '/nix/store/%s' "$(printf "%.0s$digit" {1..32})"
done

# `file CONTENTS`: the archive of a regular file.
file() { spell nix-archive-1 '(' type regular contents "$1" ')'; }

# `runtime PAIR..`: what `nixkeep runtime` reads, of pairs of a label and a path.
runtime() {
  for pair; do echo "root: $pair"; done
  echo
}

# `rows FILE STATEMENT`: what SQLite finds in a file, a line for each row. `put FILE STATEMENTS`: it changes the file.
rows() { python3 -Sc 'import sqlite3, sys
for row in sqlite3.connect(sys.argv[1]).execute(sys.argv[2]): print(*row)' "$@"; }
put() { python3 -Sc 'import sqlite3, sys; sqlite3.connect(sys.argv[1]).executescript(sys.argv[2])' "$@"; }

# `$top`: the repository.
top=${PRELUDE%/tests/cases/prelude.sh}

# `without WHAT..`: says what of these isn't here, and ends with 1 if all are. A port has to be free, if there is no
# `alone`. The step counts as skipped then.
without() {
  for what; do
    case $what in
    alone) alone true ;;
    /*) [ -d "$what" ] ;;
    port:*) alone true || ! (exec 3<>"/dev/tcp/127.0.0.1/${what#*:}") ;;
    python3-*) /usr/bin/python3 -c "import ${what#python3-}" ;;
    *) command -v "$what" >/dev/null ;;
    esac 2>/dev/null || { printf 'skipped without %s: ' "$what" && echo "$what" >>"$step.skipped" && return; }
  done
  false
}

# ---- HTTP

# `free_port`: a port where nobody listens, which the case runner has chosen: a case has one, and scripts have others.
free_port() { echo "$FREE_PORT"; }

# `message LINE..`: the head of a message.
message() { printf '%s\r\n' "$@" ''; }

# `ask USER METHOD TARGET`: a message with its body on standard input; `none` has no body.
ask() {
  cat >body
  message "$2 $3 HTTP/1.1" "store-user: $1" "content-length: $(wc -c <body)"
  cat body
}
none() { ask "$@" </dev/null; }

# `heads`: replies, each head as one line, in which `\r\n` stands for the end of a line of it.
heads() { awk '/\r$/ { sub(/\r$/, "\\r\\n"); printf "%s%s", $0, $0 == "\\r\\n" ? "\n" : ""; next } 1'; }

# `serve [COUNT]`: a server over a store in memory, which gets its input in many ways; its replies but the first COUNT,
# each of which has a head and one line of text. Its status is that of the server.
serve() {
  in-pieces nixkeep serve | heads | tail -n +$((2 * ${1:-0} + 1))
  return "${PIPESTATUS[0]}"
}
