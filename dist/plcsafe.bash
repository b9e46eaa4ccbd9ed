# Completion of plcsafe for bash: a command, and then the names of files.
_plcsafe() {
  local word=${COMP_WORDS[COMP_CWORD]}
  local commands="run fault check cert verify image load demand vote heal"
  if [ "$COMP_CWORD" -eq 1 ]; then
    mapfile -t COMPREPLY < <(compgen -W "$commands" -- "$word")
  elif [ "${COMP_WORDS[1]}" = load ]; then
    COMPREPLY=()
  else
    mapfile -t COMPREPLY < <(compgen -f -- "$word")
    compopt -o filenames
  fi
}
complete -F _plcsafe plcsafe
