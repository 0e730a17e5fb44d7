# shellcheck shell=bash
# What an install refuses: nothing may have changed then. packaging/check reads this file.

# Everything that can be seen of a folder.
picture() { find "$1" -printf '%P %y %m %u %s %T@ %l\n' | LC_ALL=C sort; }

# refuses WORDS-IN-THE-ERROR STATUS COMMAND..: the command is refused, and below $room/there nothing changes.
refuses() {
  local wanted=$1 status=$2 before is=0 said
  shift 2
  before=$(picture "$room/there")
  said=$("$@" 2>&1) || is=$?
  same "$is" "$status" || { echo "$said"; return 1; }
  [[ $said == *"$wanted"* ]] || { echo "wanted '$wanted', got '$said'"; return 1; }
  same "$(picture "$room/there")" "$before"
}

# A program that says VERSION.
make_program() {
  printf '#!/bin/sh\necho "%s"\n' "$2" > "$1"
  chmod +x "$1"
}

refuses_bad_words() {
  refuses usage: 2 "$top/install"
  refuses usage: 2 "$top/install" ""
  refuses usage: 2 "$top/install" --program
  refuses usage: 2 "$top/install" --strange "$room/there"
  refuses usage: 2 "$top/install" "$room/there/a" "$room/there/b"
  refuses "control character" 1 "$top/install" --program "$program" "$room/there/a"$'\n'"b"
  refuses "has a colon" 1 "$top/install" --program "$program" "$room/there/a:b"
  refuses "is no UTF-8" 1 "$top/install" --program "$program" "$room/there/a"$'\xff'
  refuses "begin with /" 1 env DESTDIR="$room/there" "$top/install" --program "$program" relative
}

refuses_other_programs() {
  make_program "$room/other" "gitpool 0.3.9"
  make_program "$room/longer" "gitpool $version and more"
  echo nothing > "$room/no_program"
  cp "$room/no_program" "$room/garbage"
  chmod +x "$room/garbage"
  refuses "says \`gitpool 0.3.9\`" 1 "$top/install" --program "$room/other" "$room/there/a"
  refuses "says \`gitpool $version and more\`" 1 "$top/install" --program "$room/longer" "$room/there/a"
  refuses "no executable file" 1 "$top/install" --program "$room/no_program" "$room/there/a"
  refuses "no executable file" 1 "$top/install" --program "$room/home" "$room/there/a"
  refuses "no executable file" 1 "$top/install" --program "$room/missing" "$room/there/a"
  refuses "and not \`gitpool $version\`" 1 "$top/install" --program "$room/garbage" "$room/there/a"
  "$top/install" --any-version --program "$room/other" "$room/any version"
}

refuses_what_is_in_the_way() {
  mkdir -p "$room/there/b/bin/gitpool" "$room/there/c/lib/gitpool/mine" "$room/there/d/share/doc/gitpool" "$room/there/e/lib"
  touch "$room/there/file"
  ln -s "$room/nowhere" "$room/there/dangling"
  ln -s "$room/home" "$room/there/e/lib/gitpool"
  refuses "is no folder" 1 "$top/install" --program "$program" "$room/there/file"
  refuses "is no folder" 1 "$top/install" --program "$program" "$room/there/file/below"
  refuses "is no folder" 1 "$top/install" --program "$program" "$room/there/dangling/below"
  refuses "is a folder, and a file has to be there" 1 "$top/install" --program "$program" "$room/there/b"
  refuses "no gitpool was installed into it" 1 "$top/install" --program "$program" "$room/there/c"
  refuses "no gitpool was installed into it" 1 "$top/install" --program "$program" "$room/there/d"
  refuses "lib/gitpool is a link" 1 "$top/install" --program "$program" "$room/there/e"
}

# As somebody who is not root; root may write everywhere.
refuses_a_place_that_cannot_be_written() {
  local as=()
  [ "$(id -u)" != 0 ] || as=(setpriv --reuid=65534 --regid=65534 --clear-groups)
  chmod 755 "$room"
  cp "$program" "$room/readable"
  chmod 755 "$room/readable"
  "${as[@]}" test -x "$top/install" || { echo "nobody may read $top"; return 1; }
  mkdir -p "$room/there/closed/lib"
  chmod 555 "$room/there/closed" "$room/there/closed/lib"
  refuses "cannot be written" 1 "${as[@]}" "$top/install" --program "$room/readable" "$room/there/closed"
  refuses "cannot be written" 1 "${as[@]}" "$top/install" --program "$room/readable" "$room/there/closed/below/a"
}

refuses_while_another_is_at_work() {
  cp -a "$prefix" "$room/there/busy"
  exec 8< "$room/there/busy/lib"
  flock 8
  refuses "another install is at work" 1 "$top/install" --program "$program" "$room/there/busy"
}

# A disk of 700 KiB, less than the executable has, on which an older version stands.
refuses_a_full_disk() {
  mkdir -p "$room/there/small"
  # shellcheck disable=SC2016 # (arguments of sh)
  unshare -m sh -euc '
    mount -t tmpfs -o size=700k tmpfs "$1/there/small"
    mkdir "$1/there/small/bin" && echo before > "$1/there/small/bin/mine"
    find "$1/there/small" > "$1/before"
    ! "$2/install" --program "$3" "$1/there/small" 2> "$1/said" || exit 1
    find "$1/there/small" > "$1/after"
    cat "$1/said"
    cmp "$1/before" "$1/after"
    grep -q "nothing has changed" "$1/said"' "" "$room" "$top" "$program"
}
