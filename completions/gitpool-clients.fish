# Completion of the clients of gitpool for fish. completions/README.md says where it goes.

for it in gitpool-export gitpool-import gitpool-shell
    complete -c $it -s h -l help -d 'print help'
    complete -c $it -l pool -rF -d 'the pool file'
end
for it in gitpool-export gitpool-import gitpool-shell gitpool-tenants
    complete -c $it -l version -d 'print the version'
end

complete -c gitpool-export -f
complete -c gitpool-export -l into -xa '(__fish_complete_directories)' -d 'a Git repository to import into'

complete -c gitpool-import -l partial -d 'save what was done, even if something was refused or kept'
complete -c gitpool-import -l all -rF -d 'import all streams and repositories of a list'
complete -c gitpool-import -l rewrite -d 'import repositories too whose refs get other names'
complete -c gitpool-import -l head -x -d 'let HEAD name this branch afterwards'
complete -c gitpool-import -l dry-run -d 'judge the stream, and save nothing'
complete -c gitpool-import -l filter -xa 'all dates features notes properties signatures' -d 'change the stream as these say'
complete -c gitpool-import -l import-marks -rF -d 'let the stream use the marks of this file'
complete -c gitpool-import -l import-marks-if-exists -rF -d 'the same, if there is such a file'
complete -c gitpool-import -l export-marks -rF -d 'write all marks to this file'
complete -c gitpool-import -l map -rF -d 'write a line for each object that has an original-oid'
complete -c gitpool-import -l json -rF -d 'write the verdict as JSON'
complete -c gitpool-import -l progress -d 'show progress'
complete -c gitpool-import -l no-progress -d 'show no progress'

complete -c gitpool-shell -f
complete -c gitpool-shell -l read-only -d 'serve only fetches'
complete -c gitpool-shell -l idle -x -d 'end a client that is silent for so long'
complete -c gitpool-shell -n 'test (count (commandline -opc)) -gt 1' -a 'fetch push' -d 'what to serve'
