# Completion of bebopk-explore for fish. `./build --install` puts it below share/fish/vendor_completions.d.
complete -c bebopk-explore -l rounds -x -a 'all 1 2 3 4 5 6 7 8' -d 'How many rounds are explored'
complete -c bebopk-explore -l limit -x -a '40000000 4294967295' -d 'How much is found and met at most'
complete -c bebopk-explore -l stats -d 'Also count turns, heads, tuples and nodes'
complete -c bebopk-explore -s h -l help -d 'Print help'
complete -c bebopk-explore -s V -l version -d 'Print the version'
