# Completes in bash the words of pip, parametric integer programming: `. tools/pip.bash`, or where ./install puts it.
_pip_words() {
    local words="" word
    # Behind a redirection stands a file.
    case ${COMP_WORDS[COMP_CWORD]}:${COMP_WORDS[COMP_CWORD-1]} in
        *[\<\>] | [\<\>]*) compopt -o default; COMPREPLY=(); return ;;
    esac
    if [ "$COMP_CWORD" -eq 1 ]; then
        words="solve eval simplify check share restrict same least pieces trial"
    else
        case ${COMP_WORDS[1]} in
            solve) words="--polylib --simplify --certificate --pivots --cuts --splits --nesting" ;;
            restrict) words="--pivots --cuts" ;;
            same) words="--pivots --cuts --splits" ;;
            least) words="--pivots --cuts --splits --nesting" ;;
        esac
        # An option is given once, and its number is not completed.
        words=" $words "
        for word in "${COMP_WORDS[@]:2:COMP_CWORD-2}"; do words=${words/" $word "/ }; done
        case ${COMP_WORDS[COMP_CWORD-1]} in --pivots | --cuts | --splits | --nesting | =) words="" ;; esac
    fi
    COMPREPLY=($(compgen -W "$words" -- "${COMP_WORDS[COMP_CWORD]}"))
}
_pip_name=${BASH_SOURCE[0]##*/}
complete -F _pip_words "${_pip_name%.bash}"
unset _pip_name
