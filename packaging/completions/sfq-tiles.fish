# Completion of sfq-tiles for fish.
complete -c sfq-tiles -f
complete -c sfq-tiles -n '__fish_is_nth_token 1' -k -a '(__fish_complete_suffix .sql)'
complete -c sfq-tiles -n '__fish_is_nth_token 2; or __fish_is_nth_token 3' -a '(__fish_complete_directories)'
complete -c sfq-tiles -l rows -x -d 'The most rows of a tile or a stretch'
complete -c sfq-tiles -l part -x -d 'A table, and the column of its tiles'
complete -c sfq-tiles -s h -l help -d 'Print help'
complete -c sfq-tiles -s V -l version -d 'Print the version'
