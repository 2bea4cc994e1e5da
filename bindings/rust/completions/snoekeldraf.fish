# Completion of snoekeldraf for fish.

set -l commands list verify open current diff draft seal unseal reseal convert completion help

complete -c snoekeldraf -n "not __fish_seen_subcommand_from $commands" -f
complete -c snoekeldraf -n "not __fish_seen_subcommand_from $commands" -l version -d "print the version"
complete -c snoekeldraf -l help -d "say how it is called"

complete -c snoekeldraf -n __fish_use_subcommand -a list -d "list the entries of shift files"
complete -c snoekeldraf -n __fish_use_subcommand -a verify -d "compare every tag of shift files"
complete -c snoekeldraf -n __fish_use_subcommand -a open -d "open one job"
complete -c snoekeldraf -n __fish_use_subcommand -a current -d "open a job as it stands after an amendment"
complete -c snoekeldraf -n __fish_use_subcommand -a diff -d "name the jobs in which two shift files differ"
complete -c snoekeldraf -n __fish_use_subcommand -a draft -d "make a draft of a table of jobs"
complete -c snoekeldraf -n __fish_use_subcommand -a seal -d "seal a draft"
complete -c snoekeldraf -n __fish_use_subcommand -a unseal -d "open a whole shift file"
complete -c snoekeldraf -n __fish_use_subcommand -a reseal -d "seal suite 4 entries again as suite 3"
complete -c snoekeldraf -n __fish_use_subcommand -a convert -d "move a shift file to another edition"
complete -c snoekeldraf -n __fish_use_subcommand -a completion -d "print the completion for a shell"
complete -c snoekeldraf -n __fish_use_subcommand -a help -d "say how a command is called"

complete -c snoekeldraf -n "__fish_seen_subcommand_from list verify open current seal unseal reseal" -l ring -r -d "the ring"
complete -c snoekeldraf -n "__fish_seen_subcommand_from list diff" -l csv -d "print CSV"
complete -c snoekeldraf -n "__fish_seen_subcommand_from list diff open current" -l json -d "print JSON"
complete -c snoekeldraf -n "__fish_seen_subcommand_from open current" -l out -r -d "the file for the message"
complete -c snoekeldraf -n "__fish_seen_subcommand_from draft" -l nonces -r -d "the nonce counter"
complete -c snoekeldraf -n "__fish_seen_subcommand_from convert" -l to -x -a "1 2" -d "the edition"
complete -c snoekeldraf -n "__fish_seen_subcommand_from completion" -f -a "bash zsh fish"
complete -c snoekeldraf -n "__fish_seen_subcommand_from help" -f -a "$commands"
