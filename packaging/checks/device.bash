# shellcheck shell=bash
# The device that stands before the C library. packaging/check reads this file.

device_answers_as_pread() {
  mkdir "$room/device"
  gcc -std=gnu11 -O2 -Wall -Wextra -Werror -o "$room/device/check" "$top/packaging/checks/pread.c"
  "$room/device/check" "$room/device"
}

# The loader takes it from the program's folder, whose name has a space, and so it does when the program is called on a terminal.
device_stands_before_the_program() {
  [ -f "$prefix/lib/gitpool/pread.so" ]
  same "$(LD_DEBUG=libs "$prefix/bin/gitpool" --version 2>&1 | grep -c "calling init: $prefix/lib/gitpool/pread.so")" 1
  said=$(LD_PRELOAD=libm.so.6 LD_DEBUG=libs "$prefix/bin/gitpool" --version 2>&1)
  [[ $said == *"calling init: $prefix/lib/gitpool/pread.so"* && $said == *"/libm.so.6"* ]]
  script -qec "LD_DEBUG=libs '$prefix/bin/gitpool' --version" /dev/null > "$room/device/typed"
  same "$(grep -c "calling init: $prefix/lib/gitpool/pread.so" "$room/device/typed")" 1
  ! grep "cannot be preloaded" "$room/device/typed"
}

# A pool file of 360 MB: the program reads it in parts of an eighth, and the device maps parts of 32 MiB and more.
make_large_pool() {
  for it in {1000..1359}; do
    printf 'blob\ndata 1000000\n%s' "$it"
    head -c 999996 /dev/zero
    echo
  done | "$program" import t --pool "$room/device/pool"
}

reads_by_pread() { nm -D "$1" | grep -q " U pread"; }

# 200 MB of data are enough for what is mapped, and too few for what is copied.
maps_a_large_file() {
  same "$(ulimit -d 200000; "$1" check --pool "$room/device/pool")" "objects 360 bytes 360000000 tenants 1"
  status=0
  (ulimit -d 200000; GITPOOL_COPY=1 "$1" check --pool "$room/device/pool") 2> "$room/device/said" || status=$?
  [[ $status == [45] ]] || { echo "status $status: $(cat "$room/device/said")"; return 1; }
}

installs_without_a_compiler() {
  mkdir "$room/device/bin"
  for it in $(compgen -c | sort -u); do
    [ "$it" = gcc ] || ! place=$(type -P "$it") || ln -sf "$place" "$room/device/bin/$it"
  done
  PATH=$room/device/bin "$top/install" --program "$program" "$room/device/plain" 2> "$room/device/said"
  grep -q "there is no gcc" "$room/device/said"
  [ ! -e "$room/device/plain/lib/gitpool/pread.so" ]
  same "$("$room/device/plain/bin/gitpool" < "$top/streams/hello.fi" 2>&1)" $hello
}

device_maps_a_large_file() {
  make_large_pool
  maps_a_large_file "$prefix/bin/gitpool"
}

try_device() {
  command -v gcc > /dev/null || { skipped "the device: there is no gcc"; return; }
  try device_answers_as_pread
  try device_stands_before_the_program
  try installs_without_a_compiler
  if reads_by_pread "$program"; then try device_maps_a_large_file; else skipped "a mapped pool file: this program reads it in small parts"; fi
}
