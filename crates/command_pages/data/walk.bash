# Completion of walk for bash: source this file, or lay it under bash-completion's folder as `walk`.
_walk() {
    local word=${COMP_WORDS[COMP_CWORD]} before=${COMP_WORDS[COMP_CWORD-1]}
    case $before in
        --width) COMPREPLY=($(compgen -W '0 200' -- "$word")); return ;;
    esac
    case $word in
        -*) COMPREPLY=($(compgen -W '--specification --width --unfold --help --version' -- "$word")) ;;
        *) COMPREPLY=($(compgen -f -X '!*.csp' -- "$word") $(compgen -d -- "$word")) ;;
    esac
}
complete -o filenames -F _walk walk
