# Completion of esr for fish: subcommands, their options, and files.

# Succeeds if the subcommand is one of these words.
function __esr_in
    set -l words (commandline -opc)
    test (count $words) -gt 1; and contains -- $words[2] $argv
end

# Succeeds if there is no subcommand yet.
function __esr_first
    test (count (commandline -opc)) -eq 1
end

set -l script run audit ledger why explain timeline picture page trace shrink certify
set -l all $script check lint drive explore
complete -c esr -n __esr_first -f -a "$all help"
complete -c esr -n __esr_first -f -l version
complete -c esr -n "__esr_first; or __esr_in $all" -f -l help
complete -c esr -n "__esr_in $script" -l bail
complete -c esr -n "__esr_in $script" -l progress
complete -c esr -n "__esr_in $script" -l no-progress
complete -c esr -n "__esr_in explain" -l prose
complete -c esr -n "__esr_in explain audit ledger" -x -l format -a "text csv json"
complete -c esr -n "__esr_in page" -x -l worst
complete -c esr -n "__esr_in shrink" -x -l at-least
complete -c esr -n "__esr_in certify" -l steps
complete -c esr -n "__esr_in audit drive" -x -l workers
complete -c esr -n "__esr_in drive" -l as-script
complete -c esr -n "__esr_in explore" -x -l seeds
complete -c esr -n "__esr_in explore" -l all
complete -c esr -n "__esr_in explore" -x -l worst -a "import distance blocked"
complete -c esr -n "__esr_in check" -r -l script
complete -c esr -n "__esr_in check" -x -l query
complete -c esr -n "__esr_in check" -l verbose
