# What the scripts share that time crates/benchmarks: they read this file, which does nothing by itself.
# It wants $top, the top of the repository.
program=$top/crates/benchmarks/out/benchmarks
. "$top/bench/build.sh"

# Builds the program where it must, and then runs it once.
build_benchmarks() {
  build_where_needed benchmarks xor 8 2 1
}

# The microseconds of one run of a command.
time_of() {
  local before=$EPOCHREALTIME
  "$@" >/dev/null
  local after=$EPOCHREALTIME
  echo $((${after/./} - ${before/./}))
}

least() {
  if (($1 == 0 || $2 < $1)); then echo "$2"; else echo "$1"; fi
}
