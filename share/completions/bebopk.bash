# Completion of bebopk for bash. `./build --install` puts it where bash looks.
_bebopk() {
  local word=${COMP_WORDS[COMP_CWORD]} before=${COMP_WORDS[COMP_CWORD - 1]} command=${COMP_WORDS[1]:-} options
  COMPREPLY=()
  if [ "$COMP_CWORD" = 1 ]; then
    mapfile -t COMPREPLY < <(compgen -W 'check sequential help --help --version -h -V' -- "$word")
    return
  fi
  case $command in
    check) options='--rounds --edges --stats --help -h' ;;
    sequential) options='--rounds --help -h' ;;
    help) mapfile -t COMPREPLY < <(compgen -W 'check sequential help' -- "$word"); return ;;
    *) return ;;
  esac
  case $before in
    --rounds) mapfile -t COMPREPLY < <(compgen -W '1 2 3 4 5 6 7 8' -- "$word") ;;
    --edges) mapfile -t COMPREPLY < <(compgen -W '1000000 16777216' -- "$word") ;;
    *)
      case $word in
        -*) mapfile -t COMPREPLY < <(compgen -W "$options" -- "$word") ;;
        *) compopt -o filenames; mapfile -t COMPREPLY < <(compgen -f -- "$word") ;;
      esac
      ;;
  esac
}
complete -F _bebopk bebopk
