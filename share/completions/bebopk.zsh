#compdef bebopk
# Completion of bebopk for zsh. `./build --install` puts it below share/zsh/site-functions, as _bebopk.
local rounds='--rounds[how many rounds]:K:(1 2 3 4 5 6 7 8)'
local -a commands=(
  'check:answer whether some run of at most K rounds fails an assert'
  'sequential:print the sequential program that K rounds are rewritten to'
  'help:print the help of the program or of a command'
)
if ((CURRENT == 2)); then
  _describe command commands
  _arguments '(-h --help)'{-h,--help}'[print help]' '(-V --version)'{-V,--version}'[print the version]'
  return
fi
case $words[2] in
  check)
    _arguments "$rounds" '--edges[how many path edges a procedure may have]:N:(1000000 16777216)' \
      '--stats[also count what was found of each procedure]' '(-h --help)'{-h,--help}'[print help]' '2:FILE:_files'
    ;;
  sequential) _arguments "$rounds" '(-h --help)'{-h,--help}'[print help]' '2:FILE:_files' ;;
  help) _describe command commands ;;
esac
