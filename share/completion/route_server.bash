# Completion of route_server for bash.
_route_server() {
    local word=${COMP_WORDS[COMP_CWORD]} before=${COMP_WORDS[COMP_CWORD-1]}
    case $before in
        --config) compopt -o filenames; mapfile -t COMPREPLY < <(compgen -f -- "$word") ;;
        --out) compopt -o filenames; mapfile -t COMPREPLY < <(compgen -d -- "$word") ;;
        --errors) mapfile -t COMPREPLY < <(compgen -W "rfc4271 rfc7606" -- "$word") ;;
        --tail) mapfile -t COMPREPLY < <(compgen -W "strict lenient" -- "$word") ;;
        --losses) mapfile -t COMPREPLY < <(compgen -W "recorded inferred" -- "$word") ;;
        --time | --ring | --shards | --until) COMPREPLY=() ;;
        *) mapfile -t COMPREPLY < <(compgen -W "--config --out --time --ring --shards --errors --until --tail --losses --strict --strict-after --help --version" -- "$word") ;;
    esac
}
complete -F _route_server route_server
