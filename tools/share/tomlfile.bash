# Completion of tomlfile for bash.
_tomlfile() {
    local word=${COMP_WORDS[COMP_CWORD]} name= at
    for ((at = 1; at < COMP_CWORD; at++)); do
        case ${COMP_WORDS[at]} in
            get | has | edit | keys | json | check | fmt) name=${COMP_WORDS[at]}; break ;;
        esac
    done
    case $name in
        '') COMPREPLY=($(compgen -W 'strict normal get has edit keys json check fmt --help --version' -- "$word")); return ;;
        get) [[ $word == -* ]] && COMPREPLY=($(compgen -W '--raw --lines --default --help' -- "$word")) ;;
        keys) [[ $word == -* ]] && COMPREPLY=($(compgen -W '--all --help' -- "$word")) ;;
        fmt) [[ $word == -* ]] && COMPREPLY=($(compgen -W '--check --diff --keys --sort --force --help --equals --dots --comments --blank-lines --indentation --indent --arrays --rows --commas --bracket-space --brace-space --width --inline-tables --bare-keys --left-alone' -- "$word")) ;;
        edit)
            [[ $word == -* ]] && COMPREPLY=($(compgen -W '--script --dry-run --diff --output --locked --force --help' -- "$word"))
            if ((COMP_CWORD == at + 2)) || [[ ${COMP_WORDS[COMP_CWORD - 1]} == , ]]; then
                COMPREPLY+=($(compgen -W 'set string header table section remove append insert take rename move sort comment' -- "$word"))
                return
            fi ;;
    esac
    case ${COMP_WORDS[COMP_CWORD - 1]} in
        get | has | edit | keys | json | --script | --output) COMPREPLY+=($(compgen -f -- "$word")) ;;
        *) if [[ $name == check || $name == fmt && $word != -* ]]; then COMPREPLY+=($(compgen -f -- "$word"))
           elif [[ $name != has && $name != json && -n $name && $word != -* ]]; then
               COMPREPLY+=($(compgen -W "$(tomlfile keys "${COMP_WORDS[at + 1]}" --all 2> /dev/null)" -- "$word"))
           fi ;;
    esac
}
complete -F _tomlfile tomlfile
