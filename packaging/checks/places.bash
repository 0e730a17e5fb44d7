# shellcheck shell=bash
# Odd places, and DESTDIR. packaging/check reads this file.

installs_into_an_odd_place() {
  cd "$room"
  odd=$'-odd *\'"$(no)\\\xc3\xa9;&'
  "$top/install" --program "$program" -- "$odd/"
  same "$("$room/$odd/bin/gitpool" < "$top/streams/hello.fi")" $hello
  same "$("$room/$odd/bin/gitpool-import" "$top/streams/hello.fi")" $hello
  PATH=$room/$odd/bin:$plain_path git clone -q "gitpool::$room/all.pool#acme/site" "$room/odd copy"
}

installs_below_destdir() {
  DESTDIR="$room/a stage" "$top/install" --program "$program" "${library[@]}" /opt/gitpool
  same "$("$room/a stage/opt/gitpool/bin/gitpool" < "$top/streams/hello.fi")" $hello
  diff -r "$prefix" "$room/a stage/opt/gitpool" -x __pycache__
  cd "$room"
  DESTDIR=stage "$top/install" --program "$program" "${library[@]}" /
  diff -r "$prefix" "$room/stage" -x __pycache__
  ! grep -rIlF "stage/" "$room/a stage/opt/gitpool/"{bin,lib} "$room/stage"/{bin,lib}
}
