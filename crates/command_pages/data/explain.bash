# Completion of explain for bash: source this file, or lay it under bash-completion's folder as `explain`.
_explain() {
    local word=${COMP_WORDS[COMP_CWORD]} before=${COMP_WORDS[COMP_CWORD-1]}
    case $before in
        --workers) COMPREPLY=($(compgen -W '1 2 4 8 16 32 64' -- "$word")); return ;;
        --max-pairs) COMPREPLY=($(compgen -W '100000 1000000' -- "$word")); return ;;
        --max-nodes) COMPREPLY=($(compgen -W '10000 100000' -- "$word")); return ;;
        --format) COMPREPLY=($(compgen -W 'text json' -- "$word")); return ;;
        --width) COMPREPLY=($(compgen -W '0 80 200' -- "$word")); return ;;
    esac
    case $word in
        -*) COMPREPLY=($(compgen -W '--unfold --workers --max-pairs --max-nodes --width --count --events --steps
            --progress --format --help --version' -- "$word")) ;;
        *) COMPREPLY=($(compgen -f -X '!*.csp' -- "$word") $(compgen -d -- "$word")) ;;
    esac
}
complete -o filenames -F _explain explain
