# Completion of sfq-export for fish.
complete -c sfq-export -l like -x -a '(__fish_complete_directories)' -d 'The folder that sfq-import made'
complete -c sfq-export -l to -r -d 'Write GeoJSON'
complete -c sfq-export -l svg -r -d 'Write a picture'
complete -c sfq-export -l geometry -x -d 'The column that is the geometry'
complete -c sfq-export -l wgs84 -d 'Write longitude and latitude'
complete -c sfq-export -s h -l help -d 'Print help'
complete -c sfq-export -l version -d 'Print the version'
