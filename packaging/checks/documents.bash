# shellcheck shell=bash
# Pages, completions and documents of an installed folder. packaging/check reads this file.

every_command_has_a_page() {
  unset MANPATH
  for it in "$prefix"/bin/*; do
    same "$(man -w "${it##*/}")" "$prefix/share/man/man1/${it##*/}.1.gz"
  done
}

pages_render_without_warnings() {
  for it in "$prefix"/share/man/man1/*; do
    shown=$(MANWIDTH=100 man --warnings -E UTF-8 -l "$it" 2> "$room/warnings")
    same "$(cat "$room/warnings")" ""
    [[ $shown == *"gitpool $version"* ]]
    [[ $shown == *"EXIT STATUS"* ]]
  done
}

# mandoc gets no name, for it would take the section from the last dot in a path, even from that of a folder.
mandoc_finds_no_fault_in_pages() {
  for it in "$prefix"/share/man/man1/*; do
    same "$(gunzip < "$it" | mandoc -T lint -W warning 2>&1)" ""
  done
}

# bash-completion reads the file of the command's name.
bash_completes() {
  for it in "$prefix"/bin/gitpool*; do
    bash --norc -uc '. "$1" && complete -p "$2"' "" "$prefix/share/bash-completion/completions/${it##*/}" "${it##*/}"
  done
  same "$(bash --norc -c '. "$1"; COMP_WORDS=(gitpool im); COMP_CWORD=1; _gitpool; echo "${COMPREPLY[@]}"' "" \
    "$prefix/share/bash-completion/completions/gitpool")" import
}

zsh_completes() {
  # shellcheck disable=SC2016 # (zsh's own variables)
  zsh -f -c 'fpath=($1 $fpath); shift; autoload -Uz compinit; compinit -D -u; for it in ${@:t}; do (($+_comps[$it])) || exit 1; done' "" \
    "$prefix/share/zsh/site-functions" "$prefix"/bin/gitpool*
}

fish_completes() {
  local it folder=$prefix/share/fish/vendor_completions.d
  for it in "gitpool im:import" "gitpool-import --par:--partial" "gitpool-export --in:--into"; do
    # shellcheck disable=SC2016 # (fish's own variables)
    same "$(fish --no-config -c 'set fish_complete_path $argv[1]; complete -C $argv[2]' "$folder" "${it%:*}" | cut -f 1)" "${it#*:}"
  done
}

links_of_documents_work() {
  cd "$prefix/share/doc/gitpool"
  same "$("$top/packaging/documents" .)" "$(find . -type f ! -name SHA256SUMS -printf '%P\n' | LC_ALL=C sort)"
  sha256sum -c --quiet SHA256SUMS
}

removes_as_the_document_says() {
  "$top/install" --program "$program" "${library[@]}" "$room/to remove"
  (cd "$room/to remove" && xargs rm -f < lib/gitpool/others && rm -r lib/gitpool share/doc/gitpool)
  same "$(find "$room/to remove" ! -type d)" ""
}
