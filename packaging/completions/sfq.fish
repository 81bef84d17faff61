# Completion of sfq for fish.
set -l commands run check relate why pairs fault help
set -l codes S(seq 6) L(seq 11) Q(seq 12) W(seq 4) V(seq 8)

# A parenthesis in the words of -a would be taken for a command.
function __sfq_geometries
    printf '%s\n' 'POINT(' 'MULTIPOINT(' 'LINESTRING(' 'MULTILINESTRING(' 'POLYGON(' 'MULTIPOLYGON('
end

complete -c sfq -f
complete -c sfq -s h -l help -d 'Print help'
complete -c sfq -n __fish_use_subcommand -s V -l version -d 'Print the version'
complete -c sfq -n __fish_use_subcommand -a run -d 'Write the rows that a SELECT means, as CSV'
complete -c sfq -n __fish_use_subcommand -a check -d 'Load every table, and print how many rows each has'
complete -c sfq -n __fish_use_subcommand -a relate -d 'Write the DE-9IM matrix of two geometries'
complete -c sfq -n __fish_use_subcommand -a why -d 'Show where two geometries meet, or why one is not valid'
complete -c sfq -n __fish_use_subcommand -a pairs -d 'Write the DE-9IM matrix of each pair of geometries in a file'
complete -c sfq -n __fish_use_subcommand -a fault -d 'Explain a fault, or list all codes'
complete -c sfq -n __fish_use_subcommand -a help -d 'Print help'
complete -c sfq -n '__fish_seen_subcommand_from run check relate why pairs' -l why -d 'Show where a fault is, and say what to do'
complete -c sfq -n '__fish_seen_subcommand_from run check pairs' -F
complete -c sfq -n '__fish_seen_subcommand_from relate why' -a '(__sfq_geometries)'
complete -c sfq -n '__fish_seen_subcommand_from fault' -a "$codes"
complete -c sfq -n '__fish_seen_subcommand_from help' -a "$commands"
