#!/usr/bin/env bash
# Proves and builds relayd where it isn't built yet, or where a source is newer than the program, and says how far it is.
#
# It runs the merge gate's own command over a copy that has relayd, the crates below it and none of their must-fail edits:
# this proves each crate from nothing, as many side by side as there are processors and memory. What is proved is kept on
# this machine, for the gate and for the next build. Of two builds in one checkout the second waits for the first, and so do a
# build and the test command.
#
#   tests/build.sh            builds it
#   tests/build.sh --list     prints relayd and the crates below it, lowest first
set -euo pipefail
top=$(cd "$(dirname "$0")/.." && pwd)
# shellcheck source=tests/lib/sources.sh
. "$top/tests/lib/sources.sh"

# Stops where the kit isn't there, and warns where it is another one than README.md names.
check_kit() {
  wanted=$(wanted_kit)
  if ! command -v rt >/dev/null; then
    echo "relayd is not built, and the kit's command rt is not in PATH: $wanted is wanted" >&2
    exit 1
  fi
  found=$(found_kit)
  if [ "$found" != "$wanted" ]; then
    echo "README.md names the kit $wanted, and this one is $found: what it proves may differ" >&2
  fi
}

# Copies relayd and the crates below it to a folder, as a repository of their own, without their edits and what is built.
copy_crates() {
  cp "$top/HANDLES" "$1"
  for crate in "${crates[@]}"; do
    grep -m 1 "^$crate:" "$top/crates.txt" >>"$1/crates.txt"
    mkdir -p "$1/crates/$crate"
    for part in src specs proofs args data stdin stdout status; do
      if [ -e "$top/crates/$crate/$part" ]; then cp -R "$top/crates/$crate/$part" "$1/crates/$crate"; fi
    done
  done
}

# Writes the lines of the gate's command to the log, and says of each crate that it is proved.
report_progress() {
  proved=0
  while IFS= read -r line; do
    printf '%s\n' "$line"
    case $line in
    *": its tests are proved") ;;
    "rt: "*" proved" | "rt: "*" is kept: "*)
      proved=$((proved + 1))
      name=${line#rt: }
      echo "$proved of ${#crates[@]}: ${name%% *} is proved, after $((SECONDS / 60)) min $((SECONDS % 60)) s" >&2
      ;;
    esac
  done >"$build_log"
}

# Puts the program that was built of a copy in its place, as old as the copy: a source that was changed since then is newer.
install_program() {
  mkdir -p "$(dirname "$program")"
  cp "$1/crates/relayd/out/relayd" "$program.new"
  touch -r "$1/HANDLES" "$program.new"
  mv "$program.new" "$program"
}

if [ "${1:-}" = --list ]; then
  printf '%s\n' "${crates[@]}"
  exit
fi
if is_built; then exit; fi
check_kit
wait_for_turn
# the build that it waited for may have been of the same sources
if is_built; then exit; fi
if [ -x "$program" ]; then
  echo "relayd: $newer is newer than the program, which is built again" >&2
fi
room=$(mktemp -d)
trap 'rm -rf "$room"' EXIT
SECONDS=0
copy_crates "$room"
echo "proving and building relayd: ${#crates[@]} crates, half an hour to an hour on 4 processors the first time" >&2
if ! (cd "$room" && exec rt ci) 2>&1 9>&- | report_progress; then
  tail -n 20 "$build_log" >&2
  echo "relayd was not built; the whole log is $build_log" >&2
  exit 1
fi
install_program "$room"
