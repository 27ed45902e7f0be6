complete -c distnode -f
complete -c distnode -n __fish_use_subcommand -a enact -d 'play a script from standard input'
complete -c distnode -n __fish_use_subcommand -a cookie -d 'read a cookie file'
complete -c distnode -n __fish_use_subcommand -a names -d 'ask the port mapper for its names'
complete -c distnode -n __fish_use_subcommand -a run -d 'run the nodes of a nodes file'
complete -c distnode -n '__fish_seen_subcommand_from cookie run' -F
complete -c distnode -n '__fish_seen_subcommand_from cookie' -l challenge -x -d 'digest of the cookie and this number'
complete -c distnode -n '__fish_seen_subcommand_from names' -l port -x -d 'the port of the port mapper'
complete -c distnode -n '__fish_seen_subcommand_from names' -l epmd-port -x -d 'the same'
