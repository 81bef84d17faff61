# Completion of sfq-scale for fish.
complete -c sfq-scale -f
complete -c sfq-scale -s h -l help -d 'Print help'
complete -c sfq-scale -n __fish_use_subcommand -l version -d 'Print the version'
complete -c sfq-scale -n __fish_use_subcommand -a run -d 'Run a query'
complete -c sfq-scale -n '__fish_seen_subcommand_from run' -F
complete -c sfq-scale -n '__fish_seen_subcommand_from run' -l scheduler -x -d 'The scheduler: tcp://HOST:PORT'
complete -c sfq-scale -n '__fish_seen_subcommand_from run' -l send -d 'Send the program and the tables to the workers'
complete -c sfq-scale -n '__fish_seen_subcommand_from run' -l room -x -a '(__fish_complete_directories)' -d 'A folder that the workers share'
complete -c sfq-scale -n '__fish_seen_subcommand_from run' -l rows -x -d 'The rows of a part, about'
complete -c sfq-scale -n '__fish_seen_subcommand_from run' -l most-pairs -x -d 'The most pairs that are looked at one by one'
complete -c sfq-scale -n '__fish_seen_subcommand_from run' -l explain -d 'Say how the query was split'
complete -c sfq-scale -n '__fish_seen_subcommand_from run' -l progress -d 'Show progress in a file or a pipe too'
complete -c sfq-scale -n '__fish_seen_subcommand_from run' -l wait -x -d 'For how many seconds to wait for a worker'
complete -c sfq-scale -n '__fish_seen_subcommand_from run' -l sfq -r -d 'The program sfq'
complete -c sfq-scale -n '__fish_seen_subcommand_from run' -l tiles -r -d 'The program sfq-tiles'
complete -c sfq-scale -n '__fish_seen_subcommand_from run' -l worker-sfq -r -d 'Where workers find sfq'
