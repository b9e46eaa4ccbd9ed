# Completion of plcsafe-bench for bash: a command, its options, the formats that it has, and then the names of files.
_plcsafe_bench() {
  local commands="test expand watch trace why cover never same campaign sum report live help"
  local word=${COMP_WORDS[COMP_CWORD]} before=${COMP_WORDS[COMP_CWORD - 1]} options=--help formats=
  case ${COMP_WORDS[1]} in
    test) options="--format --help" formats="text tap junit" ;;
    watch) options="--faults --format --help" formats="text csv json vcd" ;;
    why) options="--format --help" formats="text json" ;;
    cover) options="--format --least --ideas --help" formats="text json" ;;
    never | same) options="--states --help" ;;
    campaign) options="--channel --print --help" ;;
    report) options="--title --help" ;;
    live) options="--names --help" ;;
  esac
  if [ "$COMP_CWORD" -eq 1 ]; then
    mapfile -t COMPREPLY < <(compgen -W "$commands --help --version" -- "$word")
  elif [ "$before" = --format ]; then
    mapfile -t COMPREPLY < <(compgen -W "$formats" -- "$word")
  elif [ "$before" = --channel ]; then
    mapfile -t COMPREPLY < <(compgen -W "A B" -- "$word")
  elif [ "${COMP_WORDS[1]}" = help ]; then
    mapfile -t COMPREPLY < <(compgen -W "$commands" -- "$word")
  elif [[ $word == -* ]]; then
    mapfile -t COMPREPLY < <(compgen -W "$options" -- "$word")
  else
    mapfile -t COMPREPLY < <(compgen -f -- "$word")
    compopt -o filenames
  fi
}
complete -F _plcsafe_bench plcsafe-bench
