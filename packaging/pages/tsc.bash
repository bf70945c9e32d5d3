# Made by packaging/pages.py: change what it reads, and not this file.
_tsc()
{
    local cur=${COMP_WORDS[COMP_CWORD]}
    COMPREPLY=()
    if [ "$COMP_CWORD" -eq 1 ]; then
        mapfile -t COMPREPLY < <(compgen -W "serve replay compare validate close show ledger help version" -- "$cur")
    else
        case ${COMP_WORDS[1]}:$COMP_CWORD in
            serve:2|replay:2|compare:2|compare:3|validate:2|close:2|ledger:2)
                compopt -o filenames
                mapfile -t COMPREPLY < <(compgen -f -X '!*.toml' -- "$cur"; compgen -d -- "$cur")
                ;;
            compare:4)
                mapfile -t COMPREPLY < <(compgen -W "--json --html" -- "$cur")
                ;;
        esac
    fi
}
complete -F _tsc tsc conchpewter
