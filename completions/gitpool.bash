# Completion of gitpool for bash. completions/README.md says where it goes.

# Whether the word that is completed is a value of --pool or --to, also after `--pool=`, which bash takes apart.
_gitpool_is_file() {
  local before=${COMP_WORDS[COMP_CWORD - 1]}
  [ "$before" != = ] || before=${COMP_WORDS[COMP_CWORD - 2]}
  [ "$before" = --pool ] || [ "$before" = --to ]
}

# Sets `command` to the subcommand, `place` to the number of words after it, and `has_pool` and `has_to` where these were given.
_gitpool_read_words() {
  local at
  command='' place=0 has_pool='' has_to=''
  for ((at = 1; at < COMP_CWORD; at++)); do
    case ${COMP_WORDS[at]} in
      --pool | --to)
        if [ "${COMP_WORDS[at]}" = --pool ]; then has_pool=yes; else has_to=yes; fi
        ((at++)) && [ "${COMP_WORDS[at]}" = = ] && ((at++))
        ;;
      -*) ;;
      *) if [ "$command" ]; then ((place++)); else command=${COMP_WORDS[at]}; fi ;;
    esac
  done
}

_gitpool_offer() {
  local offered
  mapfile -t offered < <(compgen -W "$1" -- "$word")
  COMPREPLY+=("${offered[@]}")
}

# A query is one word, so a space in it is written `\ `.
_gitpool_offer_queries() {
  local it
  _gitpool_offer "refs head export"
  for it in rev-parse abbrev cat ls log; do
    [[ $it != "$word"* ]] || COMPREPLY+=("$it\\ ")
  done
  compopt -o nospace 2> /dev/null
}

_gitpool_offer_files() {
  mapfile -t COMPREPLY < <(compgen -f -- "${word#=}")
  compopt -o filenames 2> /dev/null
}

_gitpool_offer_arguments() {
  case $command-$place in
    ask-1) _gitpool_offer_queries ;;
    merge-0) _gitpool_offer_files ;;
    help-0) _gitpool_offer "serve import ask check copy remove compact sizes extract merge host pack" ;;
    serve-* | check-* | sizes-* | host-* | import-[1-9]* | remove-[1-9]* | compact-[1-9]* | merge-[1-9]* | ask-[2-9]* | copy-[2-9]*)
      [ "$has_pool" ] || _gitpool_offer --pool
      ;;
    extract-[1-9]*)
      [ "$has_pool" ] || _gitpool_offer --pool
      [ "$has_to" ] || _gitpool_offer --to
      ;;
    pack-[1-9]*)
      [ "$has_pool" ] || _gitpool_offer --pool
      _gitpool_offer --all
      ;;
  esac
}

_gitpool() {
  local word=${COMP_WORDS[COMP_CWORD]} command place has_pool has_to
  COMPREPLY=()
  if _gitpool_is_file; then
    _gitpool_offer_files
    return
  fi
  _gitpool_read_words
  if [[ $word == -* ]]; then
    if [ ! "$command" ]; then _gitpool_offer "--help --version"; else _gitpool_offer "--pool --help"; fi
    [ "$command" != extract ] || _gitpool_offer --to
    [ "$command" != pack ] || _gitpool_offer --all
  elif [ "$command" ]; then
    _gitpool_offer_arguments
  else
    _gitpool_offer "serve import ask check copy remove compact sizes extract merge host pack help"
  fi
}

complete -F _gitpool gitpool
