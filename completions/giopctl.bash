# Completion of giopctl for bash. Made by tools/pages from giopctl's own --help.

_giopctl() {
    local word=${COMP_WORDS[COMP_CWORD]} before=${COMP_WORDS[COMP_CWORD-1]}
    local path=giopctl words='' files='' i
    COMPREPLY=()
    # Of --option=value bash makes three words.
    if [[ $word == = ]]; then
        word=''
    elif [[ $before == = ]]; then
        before=${COMP_WORDS[COMP_CWORD-2]}
    fi
    for ((i = 1; i < COMP_CWORD; i++)); do
        case "$path ${COMP_WORDS[i]}" in
            'giopctl dump'|'giopctl check'|'giopctl trace'|'giopctl convert'|'giopctl convert ior'|'giopctl convert corbaloc'|'giopctl convert encode'|'giopctl convert decode'|'giopctl call'|'giopctl locate'|'giopctl ping'|'giopctl serve'|'giopctl help'|'giopctl convert help') path="$path ${COMP_WORDS[i]}" ;;
        esac
    done
    case "$path $before" in
        'giopctl dump --interface'|'giopctl check --interface'|'giopctl trace --interface'|'giopctl convert encode --desc'|'giopctl convert decode --desc'|'giopctl call --interface'|'giopctl serve --interface'|'giopctl serve --answers'|'giopctl serve --ior-file') files=yes ;;
        'giopctl dump --json-numbers'|'giopctl dump --message-limit'|'giopctl dump --gathered-limit'|'giopctl check --json-numbers'|'giopctl check --message-limit'|'giopctl check --calls-limit'|'giopctl check --gathered-limit'|'giopctl trace --json-numbers'|'giopctl trace --message-limit'|'giopctl convert decode --json-numbers'|'giopctl call --target'|'giopctl call --json-numbers'|'giopctl call --timeout'|'giopctl call --piece'|'giopctl call --message-limit'|'giopctl call --calls-limit'|'giopctl call --gathered-limit'|'giopctl locate --target'|'giopctl locate --timeout'|'giopctl ping --target'|'giopctl ping --timeout'|'giopctl serve --port'|'giopctl serve --key'|'giopctl serve --key-text'|'giopctl serve --type-id'|'giopctl serve --connections'|'giopctl serve --json-numbers'|'giopctl serve --piece'|'giopctl serve --message-limit'|'giopctl serve --calls-limit'|'giopctl serve --gathered-limit') return ;;
        *)
            case "$path:$word" in
                'giopctl:-'*) words='-h --help -V --version' ;;
                'giopctl dump:-'*) words='--interface --json --json-numbers --message-limit --gathered-limit -h --help' ;;
                'giopctl check:-'*) words='--interface --json --json-numbers --strict --message-limit --calls-limit --gathered-limit -h --help' ;;
                'giopctl trace:-'*) words='--interface --json --json-numbers --message-limit -h --help' ;;
                'giopctl convert:-'*) words='-h --help' ;;
                'giopctl convert ior:-'*) words='--json -h --help' ;;
                'giopctl convert corbaloc:-'*) words='--json -h --help' ;;
                'giopctl convert encode:-'*) words='--desc --little -h --help' ;;
                'giopctl convert decode:-'*) words='--desc --little --json-numbers -h --help' ;;
                'giopctl call:-'*) words='--target --interface --json --json-numbers --stream --follow --timeout --piece --little --message-limit --calls-limit --gathered-limit -h --help' ;;
                'giopctl locate:'*) words='--target --timeout --json --little --follow -h --help' ;;
                'giopctl ping:'*) words='--target --timeout --json --little -h --help' ;;
                'giopctl serve:'*) words='--port --interface --answers --key --key-text --ior-file --type-id --connections --json --json-numbers --stream --piece --little --message-limit --calls-limit --gathered-limit -h --help' ;;
                'giopctl:'*) words='dump check trace convert call locate ping serve help' ;;
                'giopctl convert:'*) words='ior corbaloc encode decode help' ;;
                'giopctl help:'*) words='dump check trace convert call locate ping serve' ;;
                'giopctl convert help:'*) words='ior corbaloc encode decode' ;;
                'giopctl dump:'*|'giopctl check:'*|'giopctl trace:'*|'giopctl convert ior:'*|'giopctl convert corbaloc:'*|'giopctl convert encode:'*|'giopctl convert decode:'*|'giopctl call:'*) files=yes ;;
            esac ;;
    esac
    if [[ -n $files ]]; then
        compopt -o filenames 2>/dev/null
        mapfile -t COMPREPLY < <(compgen -f -- "$word")
    else
        mapfile -t COMPREPLY < <(compgen -W "$words" -- "$word")
    fi
}

complete -F _giopctl giopctl
