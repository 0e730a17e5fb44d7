# What asked.zsh has its interactive zsh read.
autoload -Uz compinit && compinit -D -u
bindkey '^I' complete-word
zstyle ':completion:*' insert-tab false
comppostfuncs=(ended)
ended() {
  print 'that is all'
  exit
}
compadd() {
  # A call that fills an array for its caller offers nothing.
  if [[ ${@[1,(i)(-|--)]} == *-(O|A|D)\ * ]]; then
    builtin compadd "$@"
    return
  fi
  local -a __words
  builtin compadd -A __words "$@"
  (($#__words)) || return 1
  print -rl -- 'completed by '$^__words
}
print 'is'' ready'
