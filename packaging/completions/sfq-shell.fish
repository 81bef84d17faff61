# Completion of sfq-shell for fish.
complete -c sfq-shell -s c -l command -x -a 'SELECT EXPLAIN' -d 'Ask this query and end'
complete -c sfq-shell -l mode -x -a 'csv table json geojson' -d 'How answers are written'
complete -c sfq-shell -l all -d 'Load all tables at the start'
complete -c sfq-shell -l no-history -d 'Keep no file of what was typed'
complete -c sfq-shell -s h -l help -d 'Print help'
complete -c sfq-shell -l version -d 'Print the version'
