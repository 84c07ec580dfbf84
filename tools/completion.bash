# Completion for bash: the words and options of lwpserve, lwpview, lwpcheck, lwpstate and lwpexplore, and files where they take one.
# tools/install puts it where bash-completion looks for it; without that, `source tools/completion.bash`.

# Adds the files and folders that begin so, after words that may stand there too.
_loqzemar_words_or_files() {
  mapfile -t COMPREPLY < <(compgen -W "$1" -- "$2"; compgen -f -- "$2")
  compopt -o filenames 2> /dev/null
}

# The words of lwpserve; only numbers follow them, which nothing can complete.
_loqzemar_lwpserve() {
  COMPREPLY=()
  [ "$COMP_CWORD" -ne 1 ] || mapfile -t COMPREPLY < <(compgen -W 'plan run make batch answers replay --help --version' -- "$2")
}

# The options of lwpview, and a trace.
_loqzemar_lwpview() {
  if [ "$COMP_CWORD" -eq 1 ]; then _loqzemar_words_or_files '--last --help --version' "$2"; else _loqzemar_words_or_files '' "$2"; fi
}

# The options of lwpcheck, of which it takes one, and a script.
_loqzemar_lwpcheck() {
  if [ "$COMP_CWORD" -eq 1 ]; then _loqzemar_words_or_files '--json --print --help --version' "$2"; else _loqzemar_words_or_files '' "$2"; fi
}

# The words of lwpstate; after them stands a number, or a file.
_loqzemar_lwpstate() {
  COMPREPLY=()
  if [ "$COMP_CWORD" -eq 1 ]; then
    mapfile -t COMPREPLY < <(compgen -W 'plan replay --help --version' -- "$2")
  else
    _loqzemar_words_or_files '' "$2"
  fi
}

# The words of lwpexplore; after them stands a number, a line of a trace, or a file.
_loqzemar_lwpexplore() {
  COMPREPLY=()
  if [ "$COMP_CWORD" -eq 1 ]; then
    mapfile -t COMPREPLY < <(compgen -W 'ends trace line --help --version' -- "$2")
  else
    _loqzemar_words_or_files '' "$2"
  fi
}

complete -F _loqzemar_lwpserve lwpserve
complete -F _loqzemar_lwpview lwpview
complete -F _loqzemar_lwpcheck lwpcheck
complete -F _loqzemar_lwpstate lwpstate
complete -F _loqzemar_lwpexplore lwpexplore
