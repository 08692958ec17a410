#compdef explain
# Completion of explain for zsh: lay this file into a folder of $fpath as `_explain`.
_arguments -s \
    '--unfold[unfold names at once, as FDR does]' \
    '--workers[how many workers share a search]:N, 1 to 64: ' \
    '--max-pairs[the most pairs that a search keeps]:N, 1 to 1000000: ' \
    '--max-nodes[the most nodes of a specification]:N, 1 to 100000: ' \
    '--width[the most characters that are told of a state, or 0 for all]:N: ' \
    '--count[tell how large each search was, how long it took, and the most memory]' \
    '--events[tell the events alone, and the last state]' \
    '--steps[tell steps that unfold a name one by one]' \
    '--progress[tell once a second how far a search is]' \
    '--format[how it is told]:format:(text json)' \
    '(- *)'{-h,--help}'[print the options, statuses and refusals]' \
    '(- *)'{-V,--version}'[print the version]' \
    '1:script:_files -g "*.csp"' \
    '2:assertion: '
