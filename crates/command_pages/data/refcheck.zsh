#compdef refcheck
# Completion of refcheck for zsh: lay this file into a folder of $fpath as `_refcheck`.
_arguments -s \
    '--unfold[unfold names at once, as FDR does]' \
    '--workers[how many workers share a search]:N, 1 to 64: ' \
    '--max-pairs[the most pairs that a search keeps]:N, 1 to 1000000: ' \
    '--max-nodes[the most nodes of a specification]:N, 1 to 100000: ' \
    '(- *)'{-h,--help}'[print the options, lines and statuses]' \
    '(- *)'{-V,--version}'[print the version]' \
    '1:script:_files -g "*.csp"'
