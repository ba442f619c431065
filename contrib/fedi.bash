# Completes the arguments of `fedi` in bash, as `fedi usage` prints them. Installed as
# /usr/local/share/bash-completion/completions/fedi, or read by `source contrib/fedi.bash`.
_fedi() {
    local word=${COMP_WORDS[COMP_CWORD]} words='' file
    COMPREPLY=()
    if [ "$COMP_CWORD" -eq 1 ]; then
        words='usage init add-actor add-peer inetd serve deliver export check migrate report demo play'
    elif [[ $word != -* && ($COMP_CWORD -eq 2 && ${COMP_WORDS[1]} != @(usage|demo|play)
        || $COMP_CWORD -eq 3 && ${COMP_WORDS[1]} == migrate) ]]; then
        compopt -o filenames
        while IFS= read -r file; do COMPREPLY+=("$file"); done < <(compgen -f -- "$word")
        return
    else
        case ${COMP_WORDS[1]} in
            add-actor) words=--locked ;;
            add-peer) words=--relay ;;
            export) words='actors activities queue' ;;
        esac
        # A flag comes once, and is offered where a word begins with `-`, or all others are there.
        [[ $words == --* && ($word != -* || " ${COMP_WORDS[*]:1:COMP_CWORD-1} " == *" $words "*) ]] && words=''
        [ "${COMP_WORDS[1]}" = export ] && [ "$COMP_CWORD" -ne 3 ] && words=''
    fi
    [ -z "$words" ] || mapfile -t COMPREPLY < <(compgen -W "$words" -- "$word")
}
complete -F _fedi fedi
