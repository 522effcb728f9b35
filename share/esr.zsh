#compdef esr
# Completion of esr for zsh: subcommands, their options, and files.
_esr() {
    local command=${words[2]-} options=
    local script="--bail --progress --no-progress --help"
    if (( CURRENT == 2 )); then
        compadd -- run audit ledger why explain timeline picture page trace shrink certify check lint drive explore help --help --version
        return
    fi
    case $command in
        run | timeline | picture | trace | why) options="$script" ;;
        explain) options="$script --prose --format" ;;
        page) options="$script --worst" ;;
        shrink) options="$script --at-least" ;;
        certify) options="$script --steps" ;;
        audit) options="$script --workers --format" ;;
        ledger) options="$script --format" ;;
        drive) options="--workers --as-script --help" ;;
        explore) options="--seeds --all --worst --help" ;;
        check) options="--script --query --verbose --help" ;;
        lint) options="--help" ;;
    esac
    if [[ ${words[CURRENT - 1]} == --format ]]; then
        compadd -- text csv json
        return
    fi
    if [[ $command == explore && ${words[CURRENT - 1]} == --worst ]]; then
        compadd -- import distance blocked
        return
    fi
    case ${words[CURRENT]} in
        -*) compadd -- ${=options} ;;
        *) _files ;;
    esac
}
if [[ ${funcstack[1]-} == _esr ]]; then
    _esr "$@"
elif (( $+functions[compdef] )); then
    compdef _esr esr
fi
