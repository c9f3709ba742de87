# Completions of threefield for bash: source this file, or put it into a folder that bash-completion reads.
_threefield() {
    local word=${COMP_WORDS[COMP_CWORD]} before=${COMP_WORDS[COMP_CWORD - 1]} command=${COMP_WORDS[1]}
    local instance="--problem --format --jobs --index --name --pair --machines --explain --output --help"
    if [ "$COMP_CWORD" -eq 1 ]; then
        COMPREPLY=($(compgen -W "solve plan bound trace check evaluate gantt random problems help --help --version" -- "$word"))
        return
    fi
    case $before in
    --format | -f) COMPREPLY=($(compgen -W "table wt flow jobshop" -- "$word")); return ;;
    --size) COMPREPLY=($(compgen -W "a4 a3 16:9" -- "$word")); return ;;
    --output | -o) mapfile -t COMPREPLY < <(compgen -f -- "$word"); return ;;
    --rule) COMPREPLY=($(compgen -W "EDD SPT LPT WSPT ERD" -- "$word")); return ;;
    --answer) COMPREPLY=($(compgen -W "1 2" -- "$word")); return ;;
    --problem | -p)
        mapfile -t COMPREPLY < <(compgen -W "$({ threefield problems; threefield problems --bounds; } 2>/dev/null | sed -n '/^PROBLEM/!s/ .*//p')" -- "$word")
        return
        ;;
    =) COMPREPLY=($(compgen -W "auto always never" -- "$word")); return ;;
    esac
    # The sign behind --explain is a word of its own.
    if [ "$word" = = ]; then
        COMPREPLY=(auto always never)
        return
    fi
    if [[ $word != -* ]]; then
        if [ "$command" = help ]; then
            COMPREPLY=($(compgen -W "solve plan bound trace check evaluate gantt random problems" -- "$word"))
        else
            mapfile -t COMPREPLY < <(compgen -f -- "$word")
        fi
        return
    fi
    case $command in
    solve) COMPREPLY=($(compgen -W "$instance --answer --values --json --csv" -- "$word")) ;;
    plan) COMPREPLY=($(compgen -W "$instance --steps --json --csv" -- "$word")) ;;
    bound) COMPREPLY=($(compgen -W "$instance --steps --json" -- "$word")) ;;
    trace) COMPREPLY=($(compgen -W "$instance --tex" -- "$word")) ;;
    check) COMPREPLY=($(compgen -W "$instance --json" -- "$word")) ;;
    evaluate) COMPREPLY=($(compgen -W "$instance --certificate --tex --measures --bound --steps --order --rule --orders --grade --summary --schedule --json --csv" -- "$word")) ;;
    gantt) COMPREPLY=($(compgen -W "--columns --svg --fold --from --to --width --height --size --input --format --jobs --index --name --pair --explain --output --help" -- "$word")) ;;
    random) COMPREPLY=($(compgen -W "--problem --jobs --machines --seed --max --output --help" -- "$word")) ;;
    problems) COMPREPLY=($(compgen -W "--bounds --border --json --output --help" -- "$word")) ;;
    esac
}
complete -o filenames -F _threefield threefield
