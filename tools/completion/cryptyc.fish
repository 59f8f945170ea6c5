# Completion of cryptyc for fish. Put this file into ~/.config/fish/completions/ or share/fish/vendor_completions.d/.

complete -c cryptyc -f
complete -c cryptyc -n __fish_use_subcommand -a check -d 'whether the process is typed with the empty effect'
complete -c cryptyc -n __fish_use_subcommand -a explain -d 'what is wrong, where, and what usually mends it'
complete -c cryptyc -n __fish_use_subcommand -a derive -d 'the typing derivation behind a yes'
complete -c cryptyc -n __fish_use_subcommand -a verify -d 'whether the derivation in the file proves its process'
complete -c cryptyc -n __fish_use_subcommand -a replay -d 'run the schedule of the file, step by step'
complete -c cryptyc -n __fish_use_subcommand -a trace -d 'tell the schedule step by step, and why a step is refused'
complete -c cryptyc -n __fish_use_subcommand -a play -d 'a schedule, as a player picks it'
complete -c cryptyc -n __fish_use_subcommand -a print -d 'the file in its canonical text'
complete -c cryptyc -n __fish_use_subcommand -a knows -d 'whether an intruder knows a name at the end of the schedule'
complete -c cryptyc -n __fish_use_subcommand -a bench -d 'after each edit of named parts, whether they are typed together'
complete -c cryptyc -n __fish_use_subcommand -a upgrade -d 'the file in version 2'
complete -c cryptyc -n __fish_use_subcommand -a narrate -d 'the file of a narration, with its honest run'
complete -c cryptyc -n __fish_use_subcommand -a load -d 'the counts of K sessions of the handshake'
complete -c cryptyc -n '__fish_seen_subcommand_from play' -l steps -x -d 'the greatest number of steps, up to 1000'
complete -c cryptyc -n '__fish_seen_subcommand_from play' -l player -x -d 'the one player that picks' \
    -a '0\t"always the first" 1\t"in turn" 2\t"at random"'
