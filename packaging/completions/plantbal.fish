# Completion of plantbal for fish. Made by packaging/derived write: change that, or the words themselves.

complete -c plantbal -f
complete -c plantbal -n 'not __fish_seen_subcommand_from run check make' -a run -d 'read a session and write its reports'
complete -c plantbal -n 'not __fish_seen_subcommand_from run check make' -a check -d 'judge reports by their own numbers'
complete -c plantbal -n 'not __fish_seen_subcommand_from run check make' -a make -d 'make a session from a number'
complete -c plantbal -n '__fish_seen_subcommand_from run' -l gap -x -d 'The greatest gap at which a stage counts as converged, in thousandths of a standard deviation, from 1 to 1000000'
complete -c plantbal -n '__fish_seen_subcommand_from run' -l sweeps -x -d 'The greatest number of sweeps of a stage, from 0 to 100000'
complete -c plantbal -n '__fish_seen_subcommand_from run' -l tests -d 'Makes the global, the nodal and the measurement tests of each stage'
complete -c plantbal -n '__fish_seen_subcommand_from run' -l eliminate -x -d 'The greatest number of rounds of elimination, from 1 to 20'
complete -c plantbal -n '__fish_seen_subcommand_from run' -l format -x -a 'csv json' -d 'The form of the output: csv or json, one object on a line for each row'
complete -c plantbal -n '__fish_seen_subcommand_from make' -l number -x -d 'The number from which the session is made, 0 to 4294967295'
complete -c plantbal -n '__fish_seen_subcommand_from make' -l streams -x -d 'How many streams the made session has, from 3 to 2000'
complete -c plantbal -n '__fish_seen_subcommand_from make' -l summary -d 'Writes the summary row in place of the session'
complete -c plantbal -n '__fish_seen_subcommand_from make' -l gap -x -d 'The greatest gap at which a stage counts as converged, in thousandths of a standard deviation, from 1 to 1000000'
complete -c plantbal -n '__fish_seen_subcommand_from make' -l sweeps -x -d 'The greatest number of sweeps of a stage, from 0 to 100000'
