# Completion of sfq-schema for fish.
complete -c sfq-schema -x -a '(__fish_complete_directories)' -d 'The folder of the tables'
complete -c sfq-schema -s h -l help -d 'Print help'
complete -c sfq-schema -l version -d 'Print the version'
