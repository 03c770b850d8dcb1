# Completion of looking_glass for bash.
_looking_glass() {
    local word=${COMP_WORDS[COMP_CWORD]} before=${COMP_WORDS[COMP_CWORD-1]} options
    if [ "$COMP_CWORD" -eq 1 ]; then
        mapfile -t COMPREPLY < <(compgen -W "why history table missing summary page diff peers check start --help --version" -- "$word")
        return
    fi
    case $before in
        --config | --table | --out | --svg | --file) compopt -o filenames; mapfile -t COMPREPLY < <(compgen -f -- "$word"); return ;;
        --errors) mapfile -t COMPREPLY < <(compgen -W "rfc4271 rfc7606" -- "$word"); return ;;
        --losses) mapfile -t COMPREPLY < <(compgen -W "recorded inferred" -- "$word"); return ;;
        --tail) mapfile -t COMPREPLY < <(compgen -W "strict lenient" -- "$word"); return ;;
        --gets) mapfile -t COMPREPLY < <(compgen -W "none" -- "$word"); return ;;
        --because) mapfile -t COMPREPLY < <(compgen -W "ineligible server_as_in_path server_address_as_next_hop next_hop_off_exchange filtered prefix_length refused_prefix path_length_limit refused_as first_as prefix_list origin_as rpki_invalid refused name community large_community lost preference path_length origin med identifier address" -- "$word"); return ;;
        --client | --peer | --shards | --prefix | --from | --until | --at) COMPREPLY=(); return ;;
    esac
    case ${COMP_WORDS[1]} in
        why) options="--config --client --prefix --until --errors --losses --all --attributes --json --help" ;;
        history) options="--config --prefix --client --from --until --errors --losses --ends --attributes --json --svg --help" ;;
        table) options="--config --client --from --prefix --longer --until --count --shards --errors --losses --csv --json --help" ;;
        missing) options="--config --client --from --because --gets --until --count --shards --errors --losses --csv --json --help" ;;
        summary) options="--config --until --shards --errors --losses --csv --json --help" ;;
        page) options="--config --out --until --shards --errors --losses --help" ;;
        diff) options="--config --client --until --errors --losses --count --shards --csv --json --help" ;;
        peers) options="--json --toml --file --help" ;;
        check) options="--config --until --tail --errors --losses --help" ;;
        start) options="--table --out --peer --at --toml --file --help" ;;
    esac
    if [ "${COMP_WORDS[1]}" = peers ] && [[ $word != -* ]]; then
        compopt -o filenames
        mapfile -t COMPREPLY < <(compgen -f -- "$word")
        return
    fi
    mapfile -t COMPREPLY < <(compgen -W "$options" -- "$word")
}
complete -F _looking_glass looking_glass
