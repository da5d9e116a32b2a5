# What relayd is built of, and whether it is built. A script sources this after it has set `top`, the top of the repository.
# shellcheck shell=bash disable=SC2154

program=$top/crates/relayd/out/relayd
build_log=$top/build.log

# Prints relayd and the crates below it, lowest first: crates.txt has each after those that it uses.
crates_of_relayd() {
  tac "$top/crates.txt" |
    awk -F: 'BEGIN { used["relayd"] = 1 }
      $1 in used { print $1; count = split($2, below, " "); for (i = 1; i <= count; i++) used[below[i]] = 1 }' |
    tac
}

# Finds the sources of relayd: crates.txt, HANDLES, and each .rt and .antt of relayd and of the crates below it. The words
# given are further ones of `find`.
find_sources() {
  (cd "$top" && find crates.txt HANDLES "${crates[@]/#/crates/}" -name out -prune -o \
    -type f \( -name '*.rt' -o -name '*.antt' -o -name crates.txt -o -name HANDLES \) "$@")
}

# Prints a source that is newer than the built program, if there is one.
newer_source() {
  find_sources -newer "$program" -print -quit
}

# Whether the program is built here and no source is newer.
is_built() {
  [ -x "$program" ] && newer=$(newer_source) && [ -z "$newer" ]
}

# Waits until nothing else builds relayd in this checkout. The log of builds is the file that is locked, by the descriptor 9,
# until that is closed.
wait_for_turn() {
  exec 9>>"$build_log"
  if ! flock --nonblock 9; then
    echo "another build of relayd or the test command runs in this checkout, and this one waits for it; see $build_log" >&2
    flock 9
  fi
}

# Prints the name of the kit that README.md names.
wanted_kit() {
  # shellcheck disable=SC2016
  sed -n 's/^The kit `\([^`]*\)`:.*/\1/p' "$top/README.md"
}

# Prints the name of the kit whose command is in PATH.
found_kit() {
  rt version | sed 's/ .*//'
}

mapfile -t crates < <(crates_of_relayd)
