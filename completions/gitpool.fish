# Completion of gitpool for fish. completions/README.md says where it goes.

set -l commands serve import ask check copy remove compact sizes extract merge host pack help

complete -c gitpool -f
complete -c gitpool -s h -l help -d 'print help'
complete -c gitpool -n "not __fish_seen_subcommand_from $commands" -l version -d 'print the version'
complete -c gitpool -n "not __fish_seen_subcommand_from $commands" -a serve -d 'answer frames of steps on standard input'
complete -c gitpool -n "not __fish_seen_subcommand_from $commands" -a import -d 'import a stream of git-fast-import(1)'
complete -c gitpool -n "not __fish_seen_subcommand_from $commands" -a ask -d 'print the answer to a query'
complete -c gitpool -n "not __fish_seen_subcommand_from $commands" -a check -d 'check the pool file and count what it has'
complete -c gitpool -n "not __fish_seen_subcommand_from $commands" -a copy -d "copy a tenant's repository to an empty tenant"
complete -c gitpool -n "not __fish_seen_subcommand_from $commands" -a remove -d 'remove a tenant with all that it has'
complete -c gitpool -n "not __fish_seen_subcommand_from $commands" -a compact -d 'drop the objects that no ref of a tenant reaches'
complete -c gitpool -n "not __fish_seen_subcommand_from $commands" -a sizes -d 'print how much each tenant has'
complete -c gitpool -n "not __fish_seen_subcommand_from $commands" -a extract -d 'write a tenant to a pool file of its own'
complete -c gitpool -n "not __fish_seen_subcommand_from $commands" -a merge -d 'add the tenants of another pool file'
complete -c gitpool -n "not __fish_seen_subcommand_from $commands" -a host -d 'answer frames of steps and of the operator, and save when asked'
complete -c gitpool -n "not __fish_seen_subcommand_from $commands" -a pack -d 'write a pack of what the lines of standard input ask for'
complete -c gitpool -n "not __fish_seen_subcommand_from $commands" -a help -d 'print the help of a subcommand'
complete -c gitpool -n '__fish_seen_subcommand_from serve import ask check copy remove compact sizes extract merge host pack' -l pool -rF -d 'the pool file'
complete -c gitpool -n '__fish_seen_subcommand_from extract' -l to -rF -d 'the pool file to write'
complete -c gitpool -n '__fish_seen_subcommand_from pack' -l all -d 'also want every ref'
complete -c gitpool -n '__fish_seen_subcommand_from help' -a 'serve import ask check copy remove compact sizes extract merge host pack'

# How many words stand after the subcommand, without options and the files of --pool and --to.
function __gitpool_place
    set -l count 0
    set -l is_file no
    for it in (commandline -opc)[2..]
        if test $is_file = yes
            set is_file no
        else if contains -- "$it" --pool --to
            set is_file yes
        else if not string match -q -- '-*' "$it"
            set count (math $count + 1)
        end
    end
    test $count = $argv[1]
end

# A query is one word, so fish quotes a space in it.
set -l is_query '__fish_seen_subcommand_from ask; and __gitpool_place 2'
complete -c gitpool -n $is_query -a refs -d 'all refs with the names of their objects'
complete -c gitpool -n $is_query -a head -d 'the ref that HEAD names'
complete -c gitpool -n $is_query -a export -d 'the repository as a stream of git-fast-import(1)'
complete -c gitpool -n $is_query -a "'rev-parse '" -d 'the name of the object that an expression names'
complete -c gitpool -n $is_query -a "'abbrev '" -d 'the shortest unambiguous prefix of its name'
complete -c gitpool -n $is_query -a "'cat '" -d 'its name, kind, size and contents'
complete -c gitpool -n $is_query -a "'ls '" -d 'the entries of a tree'
complete -c gitpool -n $is_query -a "'log '" -d 'the commits of a range'

complete -c gitpool -n '__fish_seen_subcommand_from merge; and __gitpool_place 1' -F
