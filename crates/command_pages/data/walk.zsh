#compdef walk
# Completion of walk for zsh: lay this file into a folder of $fpath as `_walk`.
_arguments -s \
    '--specification[go through the specification]' \
    '--width[the most characters that are shown of a state]:N, or 0 for all: ' \
    '--unfold[unfold names at once, as FDR does]' \
    '(- *)'{-h,--help}'[print the commands, refusals and options]' \
    '(- *)'{-V,--version}'[print the version]' \
    '1:script:_files -g "*.csp"' \
    '2:assertion: '
