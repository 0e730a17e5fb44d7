# asked.zsh FOLDER LINE: prints the words by which zsh completes the last word of the line, one a line, with _gitpool of the folder.
# An interactive zsh gets the line and a tab. What it hands to compadd is printed with a mark before it.
zmodload zsh/zpty || exit 2
zpty asked zsh -f -i
zpty -w asked "PROMPT= fpath=(${(q)1} \$fpath)"
zpty -w asked "source ${(q)1}/asked_inside.zsh"
zpty -r asked line '*is ready*'
zpty -w -n asked "$2"$'\t'
while zpty -r asked line; do
  line=${line%%$'\r\n'}
  [[ $line != *'that is all'* ]] || break
  [[ $line != *'completed by '* ]] || print -r -- "${line##*completed by }"
done
zpty -d asked
