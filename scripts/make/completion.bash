# Completion of bash for scimem and sciview: their commands, the options of a command, and files. It offers what the programs
# themselves say of their words. It is installed as share/bash-completion/completions/scimem and sciview.

_lichenknit() {
    local program=$1 word=$2 offers
    if [ "$COMP_CWORD" -eq 1 ]; then
        case ${program##*/} in
            scimem) offers=$("$program" 2>&1 | sed -n '1{s/usage: scimem//; s/\[[^]]*\]//g; s/|//g; p}') ;;
            *) offers="$("$program" --help | sed -n 's/^  \([a-z]*\)  .*/\1/p') --help --version" ;;
        esac
    elif [ "${word#-}" != "$word" ]; then
        offers=$("$program" "${COMP_WORDS[1]}" --help 2>&1 | grep -o -- '--[a-z-]*' | sort -u)
    else
        return
    fi
    COMPREPLY=($(compgen -W "$offers" -- "$word"))
}

complete -o default -F _lichenknit scimem sciview
