# Completion of bebopk-explore for bash. `./build --install` puts it where bash looks.
_bebopk_explore() {
  local word=${COMP_WORDS[COMP_CWORD]} before=${COMP_WORDS[COMP_CWORD - 1]}
  COMPREPLY=()
  case $before in
    --rounds) mapfile -t COMPREPLY < <(compgen -W 'all 1 2 3 4 5 6 7 8' -- "$word") ;;
    --limit) mapfile -t COMPREPLY < <(compgen -W '40000000 4294967295' -- "$word") ;;
    *)
      case $word in
        -*) mapfile -t COMPREPLY < <(compgen -W '--rounds --limit --stats --help --version -h -V' -- "$word") ;;
        *) compopt -o filenames; mapfile -t COMPREPLY < <(compgen -f -- "$word") ;;
      esac
      ;;
  esac
}
complete -F _bebopk_explore bebopk-explore
