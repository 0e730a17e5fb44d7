# shellcheck shell=bash
# The library of an installed folder that was moved, and of the packages. packaging/check reads this file.

# A list of one change, and what an example makes of it.
change=$'0\tA <a@b>\tREADME\thello\tfirst'
converted="95 bytes of stream, 3 contents"

module_finds_its_library() {
  cd "$room"
  unset GITPOOL_LIBRARY
  export PYTHONPATH=$prefix/lib/gitpool/clients
  same "$(python3 "$top/bindings/python/examples/converter.py" <<< "$change")" "$converted"
  python3 -c 'import gitpool_library; print(gitpool_library.find_library())' > said
  same "$(readlink -f "$(cat said)")" "$(readlink -f "$prefix/lib/libgitpool.so.0")"
}

# Programs that are linked with the shared library and with the archive.
program_links_by_pkg_config() {
  local flags
  export PKG_CONFIG_PATH=$prefix/lib/pkgconfig
  same "$(pkg-config --modversion gitpool)" "$version"
  # (a folder with a space is quoted by pkg-config)
  eval "flags=($(pkg-config --cflags --libs gitpool))"
  gcc "$top/bindings/c/converter.c" "${flags[@]}" -o "$room/shared"
  gcc "$top/bindings/c/converter.c" "${flags[@]/#-lgitpool/-l:libgitpool.a}" -o "$room/archived"
  same "$(LD_LIBRARY_PATH=$prefix/lib "$room/shared" <<< "$change")" "$converted"
  same "$("$room/archived" <<< "$change")" "$converted"
  [[ $(ldd "$room/shared") == *libgitpool.so.0* ]]
  [[ $(ldd "$room/archived") != *libgitpool* ]]
}

# crate_runs CRATE: builds the examples of an installed crate, and runs one.
crate_runs() {
  unset GITPOOL_LIB_DIR
  cp -R "$1" "$room/a crate"
  rm -f "$room/a crate/.cargo-checksum.json"
  (cd "$room/a crate" && CARGO_HOME=$room/cargo CARGO_TARGET_DIR=$room/target cargo build -q --offline --examples)
  same "$(LD_LIBRARY_PATH=$prefix/lib "$room/target/debug/examples/converter" <<< "$change")" "$converted"
  rm -rf "$room/a crate" "$room/target"
}

crate_links_by_pkg_config() { PKG_CONFIG_PATH=$prefix/lib/pkgconfig crate_runs "$prefix/lib/gitpool/crate"; }

an_install_without_the_library_removes_it() {
  "$top/install" --program "$program" "${library[@]}" "$room/with"
  "$top/install" --program "$program" "$room/with"
  same "$(find "$room/with" -name '*libgitpool*' -o -name 'gitpool.[hp]*' ! -name '*.py')" "$room/with/share/doc/gitpool/include/gitpool.h"
  rm -rf "$room/with"
}

refuses_another_library() {
  mkdir "$room/no library"
  refuses "there is no libgitpool.a" 1 "$top/install" --program "$program" --library "$room/no library" "$room/there/a"
  refuses usage: 2 "$top/install" --library
}

packages_of_the_library_work() {
  local it root="$room/root of libraries" lib
  for it in libgitpool0 libgitpool-dev librust-gitpool-dev python3-gitpool gitpool; do
    dpkg-deb -x "$(deb $it)" "$root"
  done
  same "$(dpkg-deb -c "$(deb gitpool)" | grep -E 'libgitpool|gitpool_library|include')" "$(dpkg-deb -c "$(deb gitpool)" | grep doc/gitpool/include)"
  lib=$root/usr/lib/x86_64-linux-gnu
  same "$(find "$root" -xtype l)" ""
  export PKG_CONFIG_PATH=$lib/pkgconfig PKG_CONFIG_SYSROOT_DIR=$root
  gcc "$root/usr/share/doc/libgitpool-dev/examples/converter.c" "-I$root/usr/include" "-L$lib" -l:libgitpool.a -o "$room/of package"
  same "$("$room/of package" <<< "$change")" "$converted"
  same "$(pkg-config --libs-only-l gitpool | tr -d ' ')" -lgitpool
  same "$(sed -n 's/.*"files".*/&/p' "$root/usr/share/cargo/registry/gitpool-$version/.cargo-checksum.json")" '{"package":null,"files":{}}'
  export PYTHONPATH=$root/usr/lib/python3/dist-packages GITPOOL_LIBRARY=$lib/libgitpool.so.0
  same "$(python3 "$root/usr/share/doc/python3-gitpool/examples/converter.py" <<< "$change")" "$converted"
}
