# What the launchers `ojp` and `ojp_gtfs` share. Each sets `top`, `name`, the words of its first run in `first_run`, whose input
# is the file `first_input`, and calls `launch` with the words given.
# Own statuses: 70 where the proof or the build failed, 71 where the toolchain is not there.
crate=$top/crates/$name
program=$crate/out/$name
built=$crate/out/$name.sources

# The sum of all sources, under the place of the checkout: a folder out/ that was copied here has another.
sum_of_sources() {
  printf '%s\n' "$top"
  (cd "$top" && find crates.txt crates -name out -prune -o -type f -print0 | LC_ALL=C sort -z | xargs -0 sha256sum | sha256sum)
}

# Whether the program was built here and no source is younger: then no sum is taken.
is_fresh() {
  [ -x "$program" ] && [ "$(head -n 1 "$built" 2>/dev/null)" = "$top" ] || return 1
  [ -z "$(find "$top/crates.txt" "$top/crates" -name out -prune -o -newer "$built" -print -quit)" ]
}

need_toolchain() {
  command -v rt >/dev/null || { echo "$name: no toolchain: the command rt is not there" >&2; exit 71; }
}

build() {
  local sources
  sources=$(sum_of_sources)
  if [ -x "$program" ] && [ "$(cat "$built" 2>/dev/null)" = "$sources" ]; then
    touch "$built"
    return
  fi
  need_toolchain
  echo "$name: proving and building the program, which takes an hour or more the first time" >&2
  rm -f "$program" "$built"
  (cd "$crate" && rt run -- "${first_run[@]}" <"$first_input" >&2)
  [ -x "$program" ] || { echo "$name: the proof or the build failed" >&2; exit 70; }
  printf '%s\n' "$sources" >"$built"
}

launch() {
  is_fresh || build
  exec "$program" "$@"
}
