# Completion of yq in bash: commands, options and files.
# Read it by `source`, or put it as `yq` into a folder from which bash-completion loads.

# The table of options: begin.
_yq_commands='eval undo redo history squash'
_yq_options='--journal --explain -h --help'
_yq_eval_options='-i --inplace -e --exit-status -N --no-doc -d --diff --expect-change --text'
_yq_history_options='-d --diff'
# The table of options: end.

# The words up to the cursor, a line each. Bash cuts a word at = and : and the like; here it is whole, as the line has it.
_yq_words() {
    local line=$COMP_LINE rest word whole= at
    for ((at = 0; at <= COMP_CWORD; at++)); do
        word=${COMP_WORDS[at]} rest=${line#"${line%%[![:space:]]*}"}
        if ((at > 0)) && [[ ! $line || $line != "$rest" || ! $rest ]]; then
            printf '%s\n' "${whole//$'\n'/ }"
            whole=
        fi
        whole+=$word line=${rest#"$word"}
    done
    printf '%s\n' "${whole//$'\n'/ }"
}

# How many words stand before the cursor that are neither options nor the value of one, from the word of index $1 on.
_yq_places() {
    local at word names= places=0 words
    mapfile -t words < <(_yq_words)
    for ((at = $1; at < ${#words[@]} - 1; at++)); do
        word=${words[at]}
        if [[ $names ]]; then
            ((places++))
        elif [[ $word == -- ]]; then
            names=1
        elif [[ $word == --journal || $word == --text ]]; then
            [[ ${words[at + 1]} == = ]] && ((at++))
            ((at++))
        elif [[ $word != -?* ]]; then
            ((places++))
        fi
    done
    echo "$places"
}

# The files that begin with the word, those of YAML first, without journals; with $2, those that have a journal, if there are any.
_yq_files() {
    local file yaml=() others=() recorded=()
    while IFS= read -r file; do
        if [[ -d $file ]]; then
            others+=("$file")
        elif [[ $file != *.undo.json ]]; then
            [[ -e $file.undo.json ]] && recorded+=("$file")
            case $file in
                *.yaml | *.yml) yaml+=("$file") ;;
                *) others+=("$file") ;;
            esac
        fi
    done < <(compgen -f -- "$1" | sort)
    compopt -o filenames -o nosort 2> /dev/null
    if [[ $2 && ${recorded[0]} ]]; then
        yaml=("${recorded[@]}")
        mapfile -t others < <(compgen -d -- "$1")
    fi
    COMPREPLY=("${yaml[@]}" "${others[@]}")
}

_yq() {
    local word=${COMP_WORDS[COMP_CWORD]} before=${COMP_WORDS[COMP_CWORD - 1]} command=eval first=1
    local options=$_yq_options
    COMPREPLY=()
    [[ $before == = ]] && before=${COMP_WORDS[COMP_CWORD - 2]}
    [[ $word == = ]] && before=${COMP_WORDS[COMP_CWORD - 1]} word=
    if [[ $before == --journal ]]; then
        compopt -o filenames 2> /dev/null
        mapfile -t COMPREPLY < <(compgen -f -- "$word")
        return
    fi
    [[ $before == --text ]] && return
    if ((COMP_CWORD > 1)) && [[ " e $_yq_commands " == *" ${COMP_WORDS[1]} "* ]]; then
        command=${COMP_WORDS[1]} first=2
    fi
    case $command in
        e | eval) options+=" $_yq_eval_options" ;;
        history) options+=" $_yq_history_options" ;;
    esac
    if [[ $word == -* ]]; then
        mapfile -t COMPREPLY < <(compgen -W "$options" -- "$word")
        return
    fi
    case $command:$(_yq_places "$first") in
        eval:0)
            ((COMP_CWORD == 1)) && mapfile -t COMPREPLY < <(compgen -W "$_yq_commands" -- "$word")
            ;;
        e:1 | eval:1) _yq_files "$word" ;;
        undo:0 | redo:0 | history:0 | squash:1) _yq_files "$word" recorded ;;
    esac
}

complete -F _yq yq
