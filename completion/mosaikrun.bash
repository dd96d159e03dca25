# Completion of mosaikrun's words in bash: `. completion/mosaikrun.bash`, or a copy in bash's folder of completions.

# Completes a file's name that fits the pattern, or a folder's.
_mosaikrun_files() {
    compopt -o filenames 2>/dev/null
    mapfile -t COMPREPLY < <({ compgen -d -- "$1"; compgen -f -X "!$2" -- "$1"; } | sort -u)
}

_mosaikrun() {
    local current=${COMP_WORDS[COMP_CWORD]} options='' pattern='*' later='' wanted=1 given=0 place word
    COMPREPLY=()
    if ((COMP_CWORD == 1)); then
        mapfile -t COMPREPLY < <(compgen -W "run replay check demo migrate resume paced watch blame" -- "$current")
        return
    fi
    case ${COMP_WORDS[1]} in
        run) options=--record pattern='*.toml' ;;
        replay) options=--order ;;
        check) pattern='*.toml' ;;
        migrate | watch | blame) wanted=2 ;;
        resume) options=--record pattern='*.toml' later='*' wanted=2 ;;
        paced) options='--record --strict' pattern='*.toml' ;;
        *) return ;;
    esac
    for ((place = 2; place < COMP_CWORD; place++)); do
        word=${COMP_WORDS[place]}
        if [[ $word == --* && " $options " == *" $word "* ]]; then
            # its value is the next word; in --record=FILE bash makes a word of the mark between
            [[ ${COMP_WORDS[place + 1]} == "=" ]] && ((place++))
            ((place++))
            if ((place >= COMP_CWORD)); then
                [[ $current == "=" ]] && current=''
                [[ $word == --record ]] && _mosaikrun_files "$current" '*'
                return
            fi
            # each option is given at most once
            options=" $options "
            options=${options/ $word / }
        else
            ((given++))
        fi
    done
    # the second file of `resume` is a record
    ((given > 0)) && pattern=${later:-$pattern}
    if [[ $current != -* ]] && ((given < wanted)); then
        _mosaikrun_files "$current" "$pattern"
    elif [[ -n $options ]]; then
        mapfile -t COMPREPLY < <(compgen -W "$options" -- "$current")
    fi
}

complete -F _mosaikrun mosaikrun
