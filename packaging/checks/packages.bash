# shellcheck shell=bash
# The packages of ./package, and the static executable. packaging/check reads this file.

# Two checkouts of what this tree has, each with one commit.
make_checkouts() {
  mkdir "$room/one"
  if is_checkout; then
    in_git ls-files -z --cached --others --exclude-standard > "$room/names"
    in_git ls-files -z --deleted > "$room/deleted"
    (cd "$top" && comm -z -23 <(sort -z "$room/names") <(sort -z "$room/deleted") | xargs -0 cp -P --parents -t "$room/one")
  else
    cp -R "$top/." "$room/one"
  fi
  cd "$room/one"
  git init -q .
  git add -A
  GIT_AUTHOR_DATE="2026-01-02 03:04:05 +0900" GIT_COMMITTER_DATE="2026-01-02 03:04:05 +0900" git commit -qm "everything"
  mkdir -p "$room/two/of a longer name"
  git clone -q . "$room/two/of a longer name/checkout"
}

versions_of_packages_sort() {
  cd "$room/one"
  before=$(bash -c '. packaging/tree; version_of_package')
  touch new
  git config status.showUntrackedFiles no
  changed=$(bash -c '. packaging/tree; version_of_package')
  git config --unset status.showUntrackedFiles
  rm new
  git tag "v$version"
  tagged=$(bash -c '. packaging/tree; version_of_package')
  echo more >> README.md
  changed_after=$(bash -c '. packaging/tree; version_of_package')
  git -c user.name=x commit -qam later
  after=$(bash -c '. packaging/tree; version_of_package')
  git reset -q --hard HEAD~
  git tag -d "v$version"
  echo "$before $changed $tagged $changed_after $after"
  [[ $before =~ ^$version~git20260101\.180405\.[0-9a-f]{12}$ ]]
  same "$changed" "$before.dirty"
  same "$tagged" "$version"
  dpkg --compare-versions "$before" lt "$changed"
  dpkg --compare-versions "$changed" lt "$tagged"
  dpkg --compare-versions "$tagged" lt "$changed_after"
  dpkg --compare-versions "$changed_after" lt "$after"
}

packages_have_the_same_bytes() {
  local words=(--program "$program" "${library[@]}") count=1
  if [ "$static" ]; then words+=(--static "$static") count=2; else words+=(--no-static); fi
  ! has_server || count=$((count + 1))
  [ ${#library[@]} = 0 ] || count=$((count + 4))
  export GOCACHE=$room/gocache
  chmod go-rwx "$room/one/LICENSE" "$room"/one/bindings/python/examples/*
  (umask 077; cd "$room/one"; HOME=/ TZ=Asia/Tokyo LC_ALL=C ./package "${words[@]}" "$room/out one")
  mkdir -m 2777 "$room/tmp/of a group"
  cd "$room/two/of a longer name"
  (umask 000; TMPDIR="$room/tmp/of a group" TZ=America/Lima LANG=de_DE checkout/package "${words[@]}" "$room/out two")
  diff -r "$room/out one" "$room/out two"
  (cd "$room/out one" && sha256sum -c --quiet SHA256SUMS)
  same "$(find "$room/out one" -name '*.deb' | wc -l)" $count
}

# Whether there is what the server is built with.
has_server() { (. "$top/server/build" && has_go) 2> /dev/null; }

tar_ball_runs() {
  mkdir "$room/un packed"
  tar -C "$room/un packed" -xf "$room/out one"/gitpool-*.tar.gz
  mv "$room/un packed"/gitpool-* "$room/un packed/g"
  same "$("$room/un packed/g/bin/gitpool" < "$top/streams/hello.fi")" $hello
  PATH="$room/un packed/g/bin:$plain_path" git clone -q "gitpool::$room/all.pool#acme/site" "$room/tar copy"
  diff -r "$room/un packed/g" "$prefix" -x __pycache__ -x gitpool-static -x man1 -x build
  (cd "$room/un packed/g/share/man/man1" && for it in ../../../bin/*; do gzip -t "${it##*/}.1.gz"; done)
  (cd "$room/un packed/g/share/doc/gitpool" && sha256sum -c --quiet SHA256SUMS)
  [ -z "$static" ] || same "$("$room/un packed/g/bin/gitpool-static" < "$top/streams/hello.fi")" $hello
  tar -tvf "$room/out one"/gitpool-*.tar.gz | awk '$2 != "0/0" || $4 != "2026-01-01" { print; bad = 1 } END { exit bad }'
}

# deb NAME: the file of a package.
deb() { echo "$room/out one/$1"_*.deb; }

debian_package_runs() {
  dpkg-deb -x "$(deb gitpool)" "$room/root"
  same "$("$room/root/usr/bin/gitpool" < "$top/streams/hello.fi")" $hello
  PATH=$room/root/usr/bin:$plain_path git clone -q "gitpool::$room/all.pool#acme/site" "$room/deb copy"
  cd "$room"
  export PYTHONPATH=$room/root/usr/lib/python3/dist-packages
  same "$(python3 -c 'import gitpool, gitpool_faults; print(gitpool.find_program())')" "$room/root/usr/lib/gitpool/gitpool"
  same "$(find "$room/root" -xtype l)" ""
}

debian_packages_are_well_formed() {
  same "$(dpkg-deb -f "$(deb gitpool)" Depends)" "libc6 (>= 2.34), python3 (>= 3.9), git (>= 1:2.31)"
  for it in "$room/out one"/*.deb; do
    same "$(dpkg-deb -c "$it" | awk '$2 != "root/root" || $1 ~ /^.....w|^........w/ && $1 !~ /^l/ || $6 !~ /^\.\/(usr\/|$)/')" ""
    rm -rf "$room/whole"
    dpkg-deb -R "$it" "$room/whole"
    (cd "$room/whole" && md5sum -c --quiet DEBIAN/md5sums)
    same "$(cd "$room/whole" && find usr -type f | wc -l)" "$(wc -l < "$room/whole/DEBIAN/md5sums")"
    for script in "$room/whole"/DEBIAN/p*; do
      [ ! -e "$script" ] || sh -n "$script"
    done
  done
}

# Nothing has proved the program of these packages, for their checkouts have no folder out.
an_unproved_program_is_not_called_proved() {
  local it
  for it in "$room/out one"/*.deb; do
    [[ $(dpkg-deb -f "$it" Version) == *'~unproved' ]]
    ! dpkg-deb -f "$it" Description | grep -E "verified|is proved|proved (object|functions)"
  done
  same "$("$room/root/usr/bin/gitpool" --version)" "gitpool $version"$'\n'"commit: unknown"$'\n'"kit: unknown"$'\n'"logic: unknown"$'\n'"proved: no"
}

# Here the checkout has the program where ./build keeps what it has proved. Without Go there is no package of the server, which would take longest.
a_proved_program_is_called_proved() {
  local to="$room/root of proved" without
  without=$(path_without go)
  PATH=$without
  cd "$room/two/of a longer name/checkout"
  bash -c '. .ci/programs; know gitpool_cli && keep proved gitpool_cli "$1"' "" "$program"
  ./package --no-static "$room/out proved"
  same "$(find "$room/out proved" -name '*unproved*')" ""
  dpkg-deb -x "$room/out proved"/gitpool_*.deb "$to"
  [[ $(dpkg-deb -f "$room/out proved"/gitpool_*.deb Description) == "formally verified"*"is proved."* ]]
  same "$("$to/usr/bin/gitpool" --version | sed '/^kit:/d; /^logic:/d')" \
    "gitpool $version"$'\n'"commit: $(git rev-parse --short=12 HEAD)"$'\n'"proved: yes"
  same "$(./gitpool --version)" "$("$to/usr/bin/gitpool" --version)"
  # Another executable in its place is not the one that was proved.
  printf x >> "$to/usr/lib/gitpool/gitpool"
  same "$("$to/usr/bin/gitpool" --version | tail -n 1)" "proved: no, for it is not the executable that was installed"
  bash -c '. packaging/tree; is_proved_here "$1"' "" "$program"
  ! bash -c '. packaging/tree; is_proved_here "$1"' "" "$to/usr/lib/gitpool/gitpool"
  rm -rf out
}

# path_without NAME: a folder of links to all commands of the PATH but one.
path_without() {
  local to=$room/without/$1 at
  mkdir -p "$to"
  tr : '\n' <<< "$plain_path" | while read -r at; do
    [ ! -d "$at" ] || find "$at/" -maxdepth 1 ! -type d ! -name "$1" -exec ln -s -t "$to" {} + 2> /dev/null || :
  done
  echo "$to"
}

# told_first WORDS STATUS PATH SCRIPT [WORD..]: with this PATH the first line that a script prints has these words, and nothing is made.
told_first() {
  local wanted=$1 status=$2 path=$3 is=0 said
  shift 3
  said=$(PATH=$path "$@" 2>&1 < /dev/null) || is=$?
  same "$is ${said%%$'\n'*}" "$status ${1##*/}: this needs $wanted is not on the PATH, or does not answer: README.md, \"Install\", says what it is for"
  same "$(find out -type f ! -path 'out/digests/*' 2> /dev/null)" ""
}

what_is_missing_is_told_first() {
  local kit="the Rattle kit, whose command rt" git="git, which" without
  cd "$room/one"
  without=$(path_without rt)
  told_first "$kit" 125 "$without" ./build
  told_first "$kit" 125 "$without" ./build gitpool_c
  told_first "$kit" 1 "$without" .ci/run
  told_first "$kit" 1 "$without" ./package "$room/out of nothing"
  without=$(path_without git)
  ! command -v rt > /dev/null || told_first "$git" 125 "$without" ./build
  ! command -v rt > /dev/null || told_first "$git" 1 "$without" .ci/run
  told_first "$git" 1 "$without" ./package --program "$program" "$room/out of nothing"
  [ ! -e "$room/out of nothing" ]
}

# has_licence_of NAME FILE: the file has the licence of what is linked into an executable.
has_licence_of() {
  grep -A 12 "^The executable contains parts of $1:" "$2" | grep -c "^Copyright:" > /dev/null || { echo "no licence of $1"; return 1; }
}

# The package of the server, beside that of the program.
server_package_serves() {
  dpkg-deb -x "$(deb gitpool-server)" "$room/root"
  same "$("$room/root/usr/bin/gitpoold" --version | sed '2d')" "gitpoold $version
proved: no
gitpool: $room/root/usr/lib/gitpool/gitpool
$("$room/root/usr/bin/gitpool" --version | sed 's/^gitpool /version: /; s/^/gitpool /')"
  PATH=$plain_path "$room/root/usr/bin/gitpoold" init "$room/served" > /dev/null
  echo "correct horse" | "$room/root/usr/bin/gitpoold" user "$room/served" alice
  [ -f "$room/served/pool" ] && [ -f "$room/served/host_key" ]
  gzip -t "$room/root/usr/share/man/man1/gitpoold.1.gz"
  grep -hoE '(=|file:)/usr/[^ ]*' "$room/root/usr/lib/systemd/system/gitpoold@.service" | sed 's/^[^/]*//' | while read -r it; do
    [ -e "$room/root$it" ] || { echo "no $it"; return 1; }
  done
  cmp "$room/root/usr/share/doc/gitpool-server/redis.conf" "$top/server/redis.conf"
  for it in Go golang-{golang-x-crypto,golang-x-sync,github-{gomodule-redigo,klauspost-compress,yuin-goldmark,alecthomas-chroma-v2,dlclark-regexp2}}-dev; do
    has_licence_of "$it" "$room/root/usr/share/doc/gitpool-server/copyright"
  done
}

# Links the static executable, where the object is there.
link_static() {
  "$top/packaging/static" "$program" "$room/static" > "$room/log" 2>&1 < /dev/null
  case $? in
    0) static=$room/static object=$(sed -n 's/^static: linked \(.*\), SHA-256 .*, from which .*/\1/p' "$room/log") ;;
    3) skipped "the static executable: $(tail -n 1 "$room/log")" ;;
    *) tried "static links" 1 0 ;;
  esac
}

static_runs() { same "$("$static" < "$top/streams/hello.fi")" $hello; }

static_maps_a_large_file() { maps_a_large_file "$static"; }

# An object is not taken for that of another executable.
static_refuses_another_object() {
  cp "$program" "$room/changed"
  printf x >> "$room/changed"
  cp "$object" "$room/changed.o"
  refuses "is not the object of" 1 "$top/packaging/static" "$room/changed" "$room/there/static"
}

static_package_runs() {
  dpkg-deb -x "$(deb gitpool-static)" "$room/static root"
  same "$("$room/static root/usr/bin/gitpool-static" < "$top/streams/hello.fi")" $hello
  same "$("$room/static root/usr/bin/gitpool-static" --version)" "gitpool $version"
  [[ $(ldd "$room/static root/usr/bin/gitpool-static" 2>&1) == *"statically linked"* ]]
  same "$(dpkg-deb -f "$(deb gitpool-static)" Depends)" ""
  [[ $(man -l "$room/static root/usr/share/man/man1/gitpool-static.1.gz") == *"EXIT STATUS"* ]]
  [[ $(cat "$room/static root/usr/share/doc/gitpool-static/README.md") == "## The static executable"*"libc.a"* ]]
  (cd "$room/static root/usr/share/doc/gitpool-static" && sha256sum -c --quiet SHA256SUMS)
}
