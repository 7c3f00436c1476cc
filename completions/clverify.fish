# Completion of clverify for fish: put this file into a folder of $fish_complete_path.

complete -c clverify -f
complete -c clverify -n __fish_use_subcommand -a certify -d 'a certificate that a move touches neither part nor fixture'
complete -c clverify -n __fish_use_subcommand -a check -d 'whether a certificate is accepted for a move'
complete -c clverify -n __fish_use_subcommand -a list -d 'the moves of a cutter location file'
complete -c clverify -n __fish_use_subcommand -a point -d 'for each move whether it removes one point'
complete -c clverify -n __fish_use_subcommand -a save -d 'the stock that the moves leave'
complete -c clverify -n __fish_use_subcommand -a selftest -d 'the verdict of a job that is made from a number'
complete -c clverify -n __fish_use_subcommand -a verify -d 'what each move removes, and whether it is safe'
complete -c clverify -n '__fish_seen_subcommand_from list point verify certify check save' -F
complete -c clverify -n '__fish_seen_subcommand_from point' -l depth -x -a '(seq 0 10)' -d 'each move in 2^M parts'
complete -c clverify -n '__fish_seen_subcommand_from point' -l slabs -x -a '1 2 4 8 16 32 64 128 256' -d 'slabs of a corner or a cone'
complete -c clverify -n '__fish_seen_subcommand_from verify save' -l script -r -F -d 'which moves are taken, undone and redone'
complete -c clverify -n '__fish_seen_subcommand_from verify' -l workers -x -a '1 2 4 8 16' -d 'how many share the work'
complete -c clverify -n '__fish_seen_subcommand_from verify save' -l stock -r -F -d 'what an earlier path left'
