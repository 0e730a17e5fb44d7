# shellcheck shell=bash
# An installed folder that was moved: every command runs from there. packaging/check reads this file.

prefix="$room/second place/gitpool"

installs_and_moves() {
  "$top/install" --program "$program" "${library[@]}" "$room/first place/gitpool"
  mv "$room/first place" "$room/second place"
  cmp "$program" "$prefix/lib/gitpool/gitpool"
  ! grep -rIlF -e "$room" -e "$top" "$prefix"
}

runs_queries_and_faults() {
  cd "$room"
  same "$(gitpool < "$top/streams/hello.fi")" $hello
  same "$(gitpool import alice --pool two.pool < "$top/streams/hello.fi")" $hello
  same "$(gitpool ask alice 'cat ce01' --pool two.pool)" "$hello blob 6"$'\n'hello
  status=0
  said=$(gitpool ask bob 'cat ce01' --pool two.pool 2>&1) || status=$?
  same "$said $status" "gitpool: fault 16 1"
}

runs_by_a_link() {
  mkdir "$room/elsewhere"
  ln -s "$prefix/bin/gitpool" "$room/elsewhere/tool"
  ln -s tool "$room/elsewhere/again"
  ln -s "$prefix/bin/gitpool-import" "$room/elsewhere/client"
  same "$("$room/elsewhere/again" < "$top/streams/hello.fi")" $hello
  same "$("$room/elsewhere/client" "$top/streams/hello.fi")" $hello
}

every_command_says_the_version() {
  for it in "$prefix"/bin/*; do
    same "$("$it" --version | head -n 1)" "${it##*/} $version"
  done
  same "$(gitpool -V | cut -d : -f 1 | paste -sd ' ')" "gitpool $version commit kit logic proved"
}

# From the checkout, and from what is installed.
pip_installs_the_package() {
  local it
  export PYTHONDONTWRITEBYTECODE=1
  for it in "$top" "$prefix"/lib/gitpool/python/gitpool-"$version"-py3-none-any.whl; do
    rm -rf "$room/site packages"
    python3 -m pip install -q --no-index --no-deps --target "$room/site packages" "$it"
    (cd "$room/site packages" && same "$(ls -d gitpool-*)" "gitpool-$version.dist-info" && cmp gitpool.py "$top/clients/gitpool.py")
    same "$(cd "$room" && PYTHONPATH="$room/site packages" GITPOOL=$prefix/lib/gitpool/gitpool python3 -c 'if True:
      import gitpool, gitpool_library
      with gitpool.Service("all.pool", read_only=True) as service:
          print(gitpool.__file__, service.head("acme/site"))')" "$room/site packages/gitpool.py b'refs/heads/main'"
  done
}

# A repository with a merge, a tag and a deleted file.
make_site() {
  git init -q "$room/site"
  cd "$room/site"
  echo one > a && git add a && git commit -qm one
  git checkout -qb side && echo two > b && git add b && git commit -qm two
  git checkout -q main && git rm -q a && git commit -qm three && git merge -q -m four side
  git tag -a -m "a tag" v1
}

git_clones_and_pushes() {
  make_site
  git push -q "gitpool::$room/all.pool#acme/site" main side v1
  git clone -q "gitpool::$room/all.pool#acme/site" "$room/copy"
  same "$(git -C "$room/copy" rev-parse HEAD 'v1^{}' origin/side)" "$(git rev-parse main main side)"
  git -C "$room/copy" fsck --strict
  echo five > "$room/copy/c"
  git -C "$room/copy" add c
  git -C "$room/copy" commit -qm five
  git -C "$room/copy" push -q origin main
  git pull -q "gitpool::$room/all.pool#acme/site" main
  same "$(git rev-parse main)" "$(git -C "$room/copy" rev-parse main)"
}

clients_import_export_and_list() {
  cd "$room"
  git -C site fast-export --all --use-done-feature --mark-tags --reencode=no --signed-tags=verbatim > site.fi
  gitpool-import site.fi other --pool all.pool
  git init -q --bare back.git
  gitpool-export other --pool all.pool --into back.git
  same "$(git -C back.git rev-parse main v1)" "$(git -C site rev-parse main v1)"
  same "$(gitpool-tenants all.pool | cut -d ' ' -f 1 | paste -sd ' ')" "acme/site other tenants"
  said=$(gitpool-import "$top/streams/modify_bad_mode.fi" 2>&1) && return 1
  [[ $said == *"fault 23: bad mode"* ]]
}

shell_serves_a_tenant() {
  printf '#!/bin/sh\nexec gitpool-shell --pool "%s/all.pool" acme/site fetch\n' "$room" > "$room/ssh"
  chmod +x "$room/ssh"
  GIT_SSH="$room/ssh" git clone -q gitpool::ssh://git@example.org "$room/by_ssh"
  same "$(git -C "$room/by_ssh" rev-parse HEAD)" "$(git -C "$room/site" rev-parse main)"
}

python_imports_the_module() {
  cd "$room"
  PYTHONPATH=$prefix/lib/gitpool/clients python3 -c 'if True:
    from gitpool import Service
    with Service("all.pool", read_only=True) as service:
        assert [it.name for it in service.refs("acme/site")] == [b"refs/heads/main", b"refs/heads/side", b"refs/tags/v1"]'
}
