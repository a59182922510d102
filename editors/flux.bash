# Completes the words of flux and ./flux in bash: source it, or let ./flux install put it where bash finds it.
# Made by editors/make.
_flux() {
    local word="${COMP_WORDS[COMP_CWORD]}" before="${COMP_WORDS[COMP_CWORD - 1]}" command="${COMP_WORDS[1]-}"
    local values="" options="" most=0 given=0 place
    COMPREPLY=()
    # bash takes = for a word of its own.
    if [ "$word" = "=" ]; then word=""; elif [ "$before" = "=" ]; then before="${COMP_WORDS[COMP_CWORD - 2]}"; fi
    if [ "$COMP_CWORD" = 1 ]; then
        values="check plan format run audit load serve help simulate swarm version nodes lsp"
        [[ "$1" != */* ]] || values+=" prove install new --nodes"
        mapfile -t COMPREPLY < <(compgen -W "$values" -- "$word")
        return
    fi
    case "$command" in
        run) options="--runtime --docs --journal" ;;
        audit) options="--docs" ;;
        load) options="--runtime" ;;
        serve) options="--port --docs --batches --runtime --at-once" ;;
        simulate) options="--processors --costs --docs" ;;
        swarm) options="--docs" ;;
    esac
    # An option of another command completes nothing.
    [[ " $options " = *" $before "* ]] || before=""
    case "$before" in
        --docs) mapfile -t COMPREPLY < <(compgen -d -- "$word") && return ;;
        --runtime) values="event event= perflow pool= script=" ;;
        --journal) values="1 2" ;;
    esac
    if [ -n "$values" ]; then
        mapfile -t COMPREPLY < <(compgen -W "$values" -- "$word")
        [[ "${COMPREPLY[*]-}" != *= ]] || compopt -o nospace
        return
    fi
    if [[ -n "$options" && "$word" = -* ]]; then
        mapfile -t COMPREPLY < <(compgen -W "$options" -- "$word")
        return
    fi
    case "$command" in
        check) most=1 ;;
        plan) most=1 ;;
        format) most=1 ;;
        run) most=2 ;;
        audit) most=3 ;;
        load) most=0 ;;
        serve) most=1 ;;
        help) most=0 ;;
        simulate) most=2 ;;
        swarm) most=3 ;;
    esac
    for ((place = 2; place < COMP_CWORD; place++)); do
        case "${COMP_WORDS[place]}" in
            --*) place=$((place + 1)) && [ "${COMP_WORDS[place]-}" != "=" ] || place=$((place + 1)) ;;
            *) given=$((given + 1)) ;;
        esac
    done
    [ "$given" -lt "$most" ] || return
    # The first file is a program; what else is named may be any file.
    if [ "$given" = 0 ]; then
        mapfile -t COMPREPLY < <(compgen -f -X '!*.flux' -- "$word"; compgen -d -S / -- "$word")
    else
        mapfile -t COMPREPLY < <(compgen -f -- "$word")
    fi
    [[ "${COMPREPLY[*]-}" != */ ]] || compopt -o nospace
}
complete -o filenames -F _flux flux ./flux
