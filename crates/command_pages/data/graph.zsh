#compdef graph
# Completion of graph for zsh: lay this file into a folder of $fpath as `_graph`.
_arguments -s \
    '--format[how the graph is printed]:format:(aut dot)' \
    '--specification[print the graph of the specification]' \
    '--max-states[the most states of a graph]:M, 1 to 1000000: ' \
    '--unfold[unfold names at once, as FDR does]' \
    '--progress[tell once a second how many states are found]' \
    '(- *)'{-h,--help}'[print the formats, refusals and options]' \
    '(- *)'{-V,--version}'[print the version]' \
    '1:script:_files -g "*.csp"' \
    '2:assertion: '
