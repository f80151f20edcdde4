# Completion for bash: put `source PATH/tools/completion/rx10.bash` into ~/.bashrc. It completes `rx10` and `./rx10`.

_rx10() {
    local now=${COMP_WORDS[COMP_CWORD]} before=${COMP_WORDS[COMP_CWORD - 1]} command=${COMP_WORDS[1]} words=
    COMPREPLY=()
    if [ "$COMP_CWORD" -eq 1 ]; then
        mapfile -t COMPREPLY < <(compgen -W 'step live check gen verify span show draw laws sweep explain build test coordinator install package help --help --version' -- "$now")
        return
    fi
    case $before in
        --places) words='1 2 3 4 5 6 7 8 9 10 11 12 13 14 15 16' ;;
        --workers) words='1 2 3 4 5 6 7 8' ;;
        --expect | --script | --trace | --span | --log | -o)
            compopt -o default
            return
            ;;
        --heap | --kill | --join | --pick | --seed | --size | --watch | --seeds | --jobs | --columns | --title) return ;;
    esac
    if [ -n "$words" ]; then
        mapfile -t COMPREPLY < <(compgen -W "$words" -- "$now")
        return
    fi
    case $command in
        step) words='--places --heap --kill --join --pick --seed --prints --help' ;;
        live) words='--places --heap --kill --join --workers --watch --prints --help' ;;
        gen) words='--size --places --heap --kill --seed --script --trace --help' ;;
        verify) words='--why --help' ;;
        check | span | laws) words='--help' ;;
        show) words='--places --heap --kill --join --pick --seed -o --no-open --help' ;;
        draw) words='-o --script --span --columns --width --title --svg --perfetto --help' ;;
        sweep) words='--places --heap --kill --join --pick --seed --pairs --seeds --no-deaths --any-order --require --max --jobs --expect --help' ;;
        explain | build | test) words='--help' ;;
        coordinator) words='--places --log --help --version' ;;
        install | package)
            compopt -o filenames
            mapfile -t COMPREPLY < <(compgen -d -- "$now")
            return
            ;;
        help) words='step live check gen verify span show draw laws sweep explain build test coordinator install package' ;;
        *) return ;;
    esac
    case $now in
        -*) mapfile -t COMPREPLY < <(compgen -W "$words" -- "$now") ;;
        *)
            if [ "$command" = help ]; then
                mapfile -t COMPREPLY < <(compgen -W "$words" -- "$now")
                return
            fi
            # scripts, traces, and folders on the way to them
            local ending=rx
            case $command in draw | laws) ending=trace ;; esac
            case $command in verify | span) [ "$COMP_CWORD" -gt 2 ] && [ "$before" != --why ] && ending=trace ;; esac
            [ "$command" = gen ] && return
            compopt -o filenames
            mapfile -t COMPREPLY < <(compgen -f -X "!*.$ending" -- "$now"; compgen -d -- "$now")
            ;;
    esac
}

complete -F _rx10 rx10 ./rx10
