#compdef bebopk-explore
# Completion of bebopk-explore for zsh. `./build --install` puts it below share/zsh/site-functions, as _bebopk-explore.
_arguments '--rounds[how many rounds are explored]:K:(all 1 2 3 4 5 6 7 8)' \
  '--limit[how much is found and met at most]:N:(40000000 4294967295)' \
  '--stats[also count turns, heads, tuples and nodes]' '(-h --help)'{-h,--help}'[print help]' \
  '(-V --version)'{-V,--version}'[print the version]' '1:FILE:_files'
