# SPDX-License-Identifier: MIT OR Apache-2.0
# Completion of nbt for bash.

_nbt() {
    local word=${COMP_WORDS[COMP_CWORD]} before=${COMP_WORDS[COMP_CWORD - 1]} given words='' reply again
    local commands='lookup status nbns host release scan import leases answer show check sim serve node loop help' arguments=0
    COMPREPLY=()

    # bash has `--leases=file` as three words.
    if [[ $before == = ]]; then
        before=${COMP_WORDS[COMP_CWORD - 2]}
    elif [[ $word == = ]]; then
        word=''
    fi
    # --hosts has a file as its value with nbns, and none with scan.
    [[ $before != --hosts || ${COMP_WORDS[1]} != nbns ]] || before=--leases
    case $before in
    --at | --rate | --port | --server | --bind | --scope | --wait | --life | --longest | --for | --log-rate | --rows | --rows-per-client | --changes-per-client | --allow | --group | --also) return ;;
    --leases | --stats | --fixed | --allow-file)
        compopt -o filenames 2>/dev/null
        mapfile -t COMPREPLY < <(compgen -f -- "$word")
        return
        ;;
    --state)
        compopt -o filenames 2>/dev/null
        mapfile -t COMPREPLY < <(compgen -d -- "$word")
        return
        ;;
    --from)
        mapfile -t COMPREPLY < <(compgen -W 'wins.dat lmhosts nbtscan list' -- "$word")
        return
        ;;
    --tries)
        mapfile -t COMPREPLY < <(compgen -W '1 2 3' -- "$word")
        return
        ;;
    esac

    # Behind -- there are no options.
    for given in "${COMP_WORDS[@]:1:COMP_CWORD-1}"; do
        [[ $given != -- ]] || return
        [[ $given == -* ]] || ((++arguments))
    done

    if ((COMP_CWORD == 1)); then
        words="$commands --help --version"
    else
        case ${COMP_WORDS[1]} in
        lookup) words='--server --scope --exact --tries --wait --bind --help' ;;
        status) words='--also --scope --exact --tries --wait --bind --help' ;;
        nbns) words='--bind --life --longest --for --log --log-broadcasts --log-rate --leases --hosts --stats --strict --rows --rows-per-client --allow --allow-file --fixed --state --silent-after-boot --changes-per-client --check --help' ;;
        host | release) words='--server --one-table --bind --group --scope --exact --life --longest --for --log --help' ;;
        scan)
            words='--rate --tries --wait --port --bind --sorted --progress --help'
            # Of these a scan takes one.
            [[ " ${COMP_WORDS[*]:2:COMP_CWORD-2} " =~ ' '--(long|hosts|json)' ' ]] || words+=' --long --hosts --json'
            ;;
        import) words='--from --help' ;;
        leases) words='--json --help' ;;
        answer) words='--at --help' ;;
        show) words='--explain --help' ;;
        serve | node) words='--forever --help' ;;
        sim) words='--draw --help' ;;
        check | loop) words='--help' ;;
        esac
        case ${COMP_WORDS[1]}:$arguments in
        help:1) words=$commands ;;
        show:1) words+=' name dgram session' ;;
        node:6) words+=' unique group' ;;
        esac
    fi

    # Files, behind the options, as many as import reads, and one of leases.
    case ${COMP_WORDS[1]}:$arguments:$word in
    import:*:-* | leases:*:-*) ;;
    import:* | leases:1:*)
        compopt -o filenames 2>/dev/null
        mapfile -t COMPREPLY < <(compgen -f -- "$word")
        ;;
    esac

    # An option that is given isn't offered again, except these.
    again=' --group --allow --also '
    [[ ${COMP_WORDS[1]} != nbns ]] || again+='--bind '
    while IFS= read -r reply; do
        [[ $reply == --?* && $again != *" $reply "* && " ${COMP_WORDS[*]:1:COMP_CWORD-1} " == *" $reply "* ]] || COMPREPLY+=("$reply")
    done < <(compgen -W "$words" -- "$word")
}

complete -F _nbt nbt
