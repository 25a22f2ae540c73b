# Completes the words of timefd, timefd_lint and timefd_format in bash.

_timefd() {
    if [ "$COMP_CWORD" -eq 1 ]; then
        mapfile -t COMPREPLY < <(compgen -W '1 2 3 strftime' -- "$2")
    fi
}

_timefd_lint() {
    local word
    for word in "${COMP_WORDS[@]:1:COMP_CWORD-1}"; do
        if [ "$word" = -- ]; then
            mapfile -t COMPREPLY < <(compgen -f -- "$2")
            return
        fi
    done
    case $3 in
    --language) mapfile -t COMPREPLY < <(compgen -W '1 2 3 strftime python c gnu chrono jiff ruby java go moment' -- "$2") ;;
    --format) mapfile -t COMPREPLY < <(compgen -W 'human json short github sarif' -- "$2") ;;
    --color) mapfile -t COMPREPLY < <(compgen -W 'always never auto' -- "$2") ;;
    --to) mapfile -t COMPREPLY < <(compgen -W '2 3' -- "$2") ;;
    --deny | --allow)
        word='no-component other-language month-for-minute minute-for-month hour-without-period period-with-24-hours'
        word+=' subsecond-without-second week-with-calendar-year date-with-iso-year shown-twice undetermined-date'
        word+=' unsettled-width unsettled-year deprecated-component'
        mapfile -t COMPREPLY < <(compgen -W "$word" -- "$2")
        ;;
    --comment | --key) COMPREPLY=() ;;
    *)
        case $2 in
        -*)
            word='--language --format --color --comment --key --whole --source --explain --warn --deny --allow --to --normal --fix --unsafe --write --partial --lsp --quiet --help --version --'
            mapfile -t COMPREPLY < <(compgen -W "$word" -- "$2")
            ;;
        *) mapfile -t COMPREPLY < <(compgen -f -- "$2") ;;
        esac
        ;;
    esac
}

# After `--`, `--guess` and the description no word is an option.
_timefd_format() {
    local word value=
    for word in "${COMP_WORDS[@]:1:COMP_CWORD-1}"; do
        case $value$word in
        --language | --to-language | --read | --csv | --else | --zone) value=$word ;;
        --language* | --to-language* | --read* | --csv* | --else* | --zone*) value= ;;
        --guess) return ;;
        -*) [ "$word" != -- ] || return ;;
        *)
            mapfile -t COMPREPLY < <(compgen -W now -- "$2")
            return
            ;;
        esac
    done
    case $value in
    --language | --to-language) mapfile -t COMPREPLY < <(compgen -W '1 2 3 strftime python c gnu chrono jiff ruby java go moment' -- "$2") ;;
    --read | --csv) COMPREPLY=() ;;
    --else) mapfile -t COMPREPLY < <(compgen -W 'keep empty fail' -- "$2") ;;
    *)
        word='--language --read --to-language --csv --else --guess --zone --quiet --help --version --'
        mapfile -t COMPREPLY < <(compgen -W "$word" -- "$2")
        ;;
    esac
}

complete -F _timefd timefd
complete -F _timefd_format timefd_format
complete -o filenames -F _timefd_lint timefd_lint
