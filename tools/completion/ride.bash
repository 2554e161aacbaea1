# Completes the words of ride.

_ride() {
    local word=${COMP_WORDS[COMP_CWORD]} before=${COMP_WORDS[COMP_CWORD - 1]} options=
    if [ "$COMP_CWORD" -eq 1 ]; then
        mapfile -t COMPREPLY < <(compgen -W "map trips fleet report --help" -- "$word")
        return
    fi
    case ${COMP_WORDS[1]} in
        map) options="-o --help" ;;
        trips) options="-o --within --help" ;;
        fleet) options="-o --cars --places --seed --seats --spaces --from --until --within --help" ;;
        report) options="-o --stop --help" ;;
    esac
    case $before in
        --cars | --seed | --seats | --spaces | --from | --until | --within | --stop) return ;;
    esac
    if [[ $word == -* ]]; then
        mapfile -t COMPREPLY < <(compgen -W "$options" -- "$word")
    else
        mapfile -t COMPREPLY < <(compgen -f -- "$word")
        # A city is the beginning of two names.
        mapfile -t -O "${#COMPREPLY[@]}" COMPREPLY < <(compgen -f -X '!*.gr' -- "$word" | sed 's/\.gr$//')
    fi
}

complete -o filenames -F _ride ride
