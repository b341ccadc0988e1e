# completion of npos for fish
set -l verbs replay check mine pack show demo checkpoint resume pools
complete -c npos -f
complete -c npos -n "not __fish_seen_subcommand_from $verbs" -a "$verbs"
complete -c npos -n '__fish_seen_subcommand_from mine' -l miner -x -a '@MINERS@' -d 'which miner'
complete -c npos -n '__fish_seen_subcommand_from mine' -l rounds -x -d 'balancing rounds of mms, 1 to 100'
complete -c npos -n '__fish_seen_subcommand_from demo' -l seed -x
complete -c npos -n '__fish_seen_subcommand_from demo' -l voters -x
complete -c npos -n '__fish_seen_subcommand_from demo' -l seats -x
