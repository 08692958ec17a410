# Completion of graph for bash: source this file, or lay it under bash-completion's folder as `graph`.
_graph() {
    local word=${COMP_WORDS[COMP_CWORD]} before=${COMP_WORDS[COMP_CWORD-1]}
    case $before in
        --format) COMPREPLY=($(compgen -W 'aut dot' -- "$word")); return ;;
        --max-states) COMPREPLY=($(compgen -W '1000 100000 1000000' -- "$word")); return ;;
    esac
    case $word in
        -*) COMPREPLY=($(compgen -W '--format --specification --max-states --unfold --progress --help --version' -- "$word")) ;;
        *) COMPREPLY=($(compgen -f -X '!*.csp' -- "$word") $(compgen -d -- "$word")) ;;
    esac
}
complete -o filenames -F _graph graph
