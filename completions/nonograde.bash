# Completions of nonograde for bash.
_nonograde() {
    local words='' before=$3 typed=$2 option=''
    if [[ $before == = ]]; then
        before=${COMP_WORDS[COMP_CWORD - 2]}
    elif [[ $typed == --*=* ]]; then # COMP_WORDBREAKS has no `=`
        before=${typed%%=*} option=${typed%%=*}= typed=${typed#*=}
    fi
    case $COMP_CWORD:$before in
        1:*) words='survey check solve convert lines help --help --version' ;;
        *:help) words='survey check solve convert lines help' ;;
        *:--pick) words='first most' ;;
        *:--format) words='text csv json html' ;;
        *:--grade) words='line trials' ;;
        *:--to) words='non mk nin' ;;
        *:--lanes | *:--ring | *:--guesses) ;;
        *)
            case ${COMP_WORDS[1]} in
                survey) words='--lanes --ring --guesses --pick --format --show --progress --help' ;;
                check) words='--lanes --ring --guesses --pick --grade --all --strict --progress --help' ;;
                solve) words='--guesses --pick --help' ;;
                convert) words='--to --help' ;;
                lines) words='--help' ;;
                *) return ;;
            esac
            if [[ $2 != -* ]]; then
                compopt -o filenames 2>/dev/null
                mapfile -t COMPREPLY < <(compgen -d -- "$2"; compgen -f -- "$2" | grep -iE '[.](non|mk|nin)$')
                return
            fi
            ;;
    esac
    mapfile -t COMPREPLY < <(compgen -P "$option" -W "$words" -- "$typed")
}
complete -F _nonograde nonograde
