# Completion of the words of bats, for bash: source this file. A test runner for shell scripts has the same name.

# What may follow a word that takes a value, if it is one of few.
_bats_values() { # the word before
    case $1 in
        --rule) echo fixed extra ;;
        --table) echo 0 1 ;;
        *) return 1 ;;
    esac
}

# The options and flags of a command.
_bats_options() { # the command
    case $1 in
        source) echo --m --t --seed --batches --table --from --systematic ;;
        relay) echo --seed --rule --count ;;
        sink) echo --workers --both ;;
        replay) echo --workers --both --pool ;;
        check) echo --workers ;;
        trial) echo --number --m --t --length --batches --relays --loss --table --workers ;;
    esac
}

# The options of the command that may still come: none twice, and of `replay` not both flags.
_bats_options_left() {
    local option words=" ${COMP_WORDS[*]:2:COMP_CWORD-2} "
    if [ "${COMP_WORDS[1]}" = replay ]; then
        words=${words/ --both / --both --pool }
        words=${words/ --pool / --both --pool }
    fi
    for option in $(_bats_options "${COMP_WORDS[1]}"); do
        [[ $words == *" $option "* ]] || echo "$option"
    done
}

_bats() {
    local current=${COMP_WORDS[COMP_CWORD]} before=${COMP_WORDS[COMP_CWORD - 1]} choices
    COMPREPLY=()
    case $before in
        '<' | '>' | '>>' | '2>')
            compopt -o default
            return
            ;;
        --m | --t | --seed | --batches | --from | --count | --workers | --number | --length | --relays | --loss) return ;;
    esac
    if [ "$COMP_CWORD" -eq 1 ]; then
        choices="source relay sink replay check show trial help"
    elif ! choices=$(_bats_values "$before"); then
        choices=$(_bats_options_left)
    fi
    mapfile -t COMPREPLY < <(compgen -W "$choices" -- "$current")
}

complete -F _bats bats bats_tool
