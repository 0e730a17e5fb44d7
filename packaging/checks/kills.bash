# shellcheck shell=bash
# Installs that are killed after each of their steps, and completed by a second run. packaging/check reads this file.

# Commands that an install uses below PREFIX, each with a count: after the one of the number in AFTER the install is killed.
make_killers() {
  local it
  mkdir "$room/killers"
  cat > "$room/killers/mv" << END
#!/bin/sh
PATH=\${PATH#*:}
case "\$*" in *"\$PLACE"*) ;; *) exec "\${0##*/}" "\$@" ;; esac
"\${0##*/}" "\$@"
status=\$?
echo "\${0##*/} \$*" >> "\$STEPS"
[ "\$(wc -l < "\$STEPS")" != "\$AFTER" ] || kill -KILL \$PPID
exit \$status
END
  chmod +x "$room/killers/mv"
  for it in cp mkdir rm find python3; do
    ln -s mv "$room/killers/$it"
  done
}

# install_killed AFTER TREE PLACE: an install from this tree, which is killed after its step of this number.
install_killed() {
  : > "$3.steps"
  (AFTER=$1 PLACE=$3 STEPS=$3.steps PATH=$room/killers:$plain_path "$2/install" --program "$2/program" "${library[@]}" "$3" > "$3.said" 2>&1) 2> /dev/null
}

# Every command that is there runs, and says this version or that.
commands_run() {
  local it said
  for it in "$1"/bin/*; do
    [ -e "$it" ] || [ -L "$it" ] || continue
    said=$("$it" --version 2>&1) || { echo "$it: $said"; return 1; }
    said=${said%%$'\n'*}
    [[ $said == "${it##*/} $2" || $said == "${it##*/} $3" ]] || { echo "$it: $said"; return 1; }
  done
}

# make_tree NAME VERSION: what an install reads, with one document and a program that says its version and nothing else.
make_tree() {
  mkdir -p "$room/$1/crates/command_lines/src"
  cp -R "$top/install" "$top/build" "$top/packaging" "$top/clients" "$top/man" "$top/completions" "$top/include" "$top/LICENSE" "$room/$1"
  mkdir "$room/$1/bindings"
  cp -R "$top/bindings/python" "$top/bindings/rust" "$room/$1/bindings"
  sed -i "s/^\(#define GITPOOL_VERSION\|version =\) \"$version\"/\1 \"$2\"/" "$room/$1/include/gitpool.h" "$room/$1/bindings/rust/Cargo.toml"
  echo "pub const VERSION: &str = \"$2\";" > "$room/$1/crates/command_lines/src/version.rt"
  echo "Version $2." > "$room/$1/README.md"
  make_program "$room/$1/program" "gitpool $2"
}

# The modules of the older version do not go with those of this one, and it has a command more.
make_trees() {
  make_tree newer "$version"
  make_tree older 0.3.9
  cd "$room/older"
  cp clients/gitpool-tenants clients/gitpool-gone
  cp man/gitpool-tenants.1 man/gitpool-gone.1
  sed -i 's/"gitpool-tenants", version/"gitpool-gone", version/' clients/gitpool-gone
  sed -i 's/\bversion()/release()/; s/import version\b/import release/' clients/git*
}

# Where an install was killed, the next one leaves what this tree has.
completes() {
  cp -a "$1" "$1.again"
  "$room/newer/install" --program "$room/newer/program" "${library[@]}" "$1.again" && diff -r "$1.again" "$room/wanted" -x __pycache__ && rm -rf "$1.again"
}

# kills PLACE [OLD]: installs the newer version into a place, over what the folder OLD has; kills that after each step, and at last does not.
kills() {
  local after=1
  while [ -z "${2-}" ] || { rm -rf "$1" && cp -a "$2" "$1"; } && ! install_killed $after "$room/newer" "$1"; do
    [ "$(wc -l < "$1.steps")" = $after ] || { echo "step $after ended otherwise"; cat "$1.said"; return 1; }
    commands_run "$1" "$version" 0.3.9 || { echo "after step $after: $(tail -n 1 "$1.steps")"; return 1; }
    [ $((after % 4)) != 1 ] || completes "$1" || return
    after=$((after + 1))
  done
  echo "$((after - 1)) steps"
  diff -r "$1" "$room/wanted" -x __pycache__
}

kills_of_a_first_install() { mkdir "$room/killed"; kills "$room/killed"; }
kills_of_an_upgrade() { kills "$room/upgraded" "$room/former"; }

prepare_kills() {
  make_killers
  make_trees
  "$room/newer/install" --program "$room/newer/program" "${library[@]}" "$room/wanted"
  "$room/older/install" --program "$room/older/program" "${library[@]}" "$room/former"
  commands_run "$room/wanted" "$version" "$version"
  commands_run "$room/former" 0.3.9 0.3.9
}
