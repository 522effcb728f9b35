# Completion of esr for bash: subcommands, their options, and files.
_esr() {
    local word=${COMP_WORDS[COMP_CWORD]} command=${COMP_WORDS[1]-} options=
    local script="--bail --progress --no-progress --help"
    if [ "$COMP_CWORD" -eq 1 ]; then
        mapfile -t COMPREPLY < <(compgen -W "run audit ledger why explain timeline picture page trace shrink certify check lint drive explore help --help --version" -- "$word")
        return
    fi
    case $command in
        run | timeline | picture | trace | why) options="$script" ;;
        explain) options="$script --prose --format" ;;
        page) options="$script --worst" ;;
        shrink) options="$script --at-least" ;;
        certify) options="$script --steps" ;;
        audit) options="$script --workers --format" ;;
        ledger) options="$script --format" ;;
        drive) options="--workers --as-script --help" ;;
        explore) options="--seeds --all --worst --help" ;;
        check) options="--script --query --verbose --help" ;;
        lint) options="--help" ;;
    esac
    if [ "${COMP_WORDS[COMP_CWORD - 1]}" = --format ]; then
        mapfile -t COMPREPLY < <(compgen -W "text csv json" -- "$word")
        return
    fi
    if [ "$command" = explore ] && [ "${COMP_WORDS[COMP_CWORD - 1]}" = --worst ]; then
        mapfile -t COMPREPLY < <(compgen -W "import distance blocked" -- "$word")
        return
    fi
    case $word in
        -*) mapfile -t COMPREPLY < <(compgen -W "$options" -- "$word") ;;
        *) mapfile -t COMPREPLY < <(compgen -f -- "$word") ;;
    esac
}
complete -o filenames -F _esr esr
