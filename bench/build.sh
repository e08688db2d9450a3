# What ./avalanche and the scripts here share that need a built program: they read this file, which does nothing by itself.
# It wants $top, the top of the repository.

# The crates of the repository that a crate stands on, with that crate, as crates.txt names them.
parts_of() {
  awk -F: -v crate="$1" '
    { sub(/#.*/, "") }
    NF > 1 { split($1, words, " "); below[words[1]] = $2 }
    END {
      found[1] = crate; known[crate] = 1; count = 1
      for (at = 1; at <= count; at++) {
        print found[at]
        number = split(below[found[at]], names, " ")
        for (i = 1; i <= number; i++)
          if (names[i] in below && !(names[i] in known)) { known[names[i]] = 1; found[++count] = names[i] }
      }
    }' "$top/crates.txt"
}

# Whether a crate's program is there, and no source, definition or proof that it is made of is newer.
is_built() {
  local program=$top/crates/$1/out/$1 part sources=("$top/crates.txt")
  [ -x "$program" ] || return
  for part in $(parts_of "$1"); do
    sources+=("$top/crates/$part"/{src,specs,proofs})
  done
  [ -z "$(find "${sources[@]}" -newer "$program" -print -quit 2>/dev/null)" ]
}

# Proves and builds it, and runs it once with these words. The log stays where the program cannot be built.
build_anew() {
  local crate=$1 log
  shift
  if ! command -v rt >/dev/null; then
    echo "${0##*/}: the program is not built, and the kit's command rt is not on the path" >&2
    return 1
  fi
  log=$(mktemp -t avalanche-build.XXXXXX) || return
  echo "${0##*/}: proving and building, some minutes the first time (see $log)" >&2
  rm -f "$top/crates/$crate/out/$crate"
  (cd "$top/crates/$crate" && exec rt run -- "$@") </dev/null >/dev/null 2>"$log" 9<&- || true
  if ! [ -x "$top/crates/$crate/out/$crate" ]; then
    cat "$log" >&2
    echo "${0##*/}: the program could not be built (see $log)" >&2
    return 1
  fi
  rm -f "$log"
}

# Builds the program of a crate where it is missing or older than what it is made of. Of several that come at once one builds:
# who looks waits for whoever builds, and who is to build looks again once it is alone.
build_where_needed() {
  (
    flock --shared 9 || exit
    is_built "$1" && exit
    flock 9 || exit
    is_built "$1" || build_anew "$@"
  ) 9<"$top/crates.txt"
}
