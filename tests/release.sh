#!/usr/bin/env bash
# The released program: release/relayd.xz, which ./relayd runs where release/SOURCES says that it was built of the sources
# that are here. SOURCES has three lines: the SHA-256 sum of the program, that of its sources, and the kit that built it. The
# sum of the sources is that of a list of them, each with its own: `tests/release.sh --sources | sha256sum` prints it.
#
#   tests/release.sh --program    prints the program that ./relayd runs: the one that is built here; else the released one,
#                                 where its sources are those that are here; else one that is proved and built first
#   tests/release.sh --check      compares the released program with the one that is built here, byte for byte
#   tests/release.sh --update     makes the one that is built here the released one
#   tests/release.sh --sources    prints a line of sha256sum for each source, in the order of the names' bytes
set -euo pipefail
top=$(cd "$(dirname "$0")/.." && pwd)
# shellcheck source=tests/lib/sources.sh
. "$top/tests/lib/sources.sh"
packed=$top/release/relayd.xz
sums=$top/release/SOURCES
unpacked=$top/release/out/relayd

# Says why this script fails, and ends it.
fail() {
  echo "$1" >&2
  exit 1
}

# Prints a line of sha256sum for each source, in the order of the names' bytes.
sums_of_sources() {
  find_sources -print0 | LC_ALL=C sort --zero-terminated | (cd "$top" && xargs --null sha256sum)
}

# Prints the SHA-256 sum of what is read.
sum() {
  sha256sum | sed 's/ .*//'
}

# Prints what release/SOURCES has after a word, one of `program`, `sources` and `kit`.
released() {
  sed -n "s/^$1 //p" "$sums"
}

# Whether the released program was built of the sources that are here, by the kit that README.md names.
is_of_these_sources() {
  [ "$(released kit)" = "$(wanted_kit)" ] && [ "$(released sources)" = "$(sums_of_sources | sum)" ]
}

# Unpacks the released program to a file; says why, where it can't be unpacked or isn't the one of release/SOURCES.
unpack() {
  if ! command -v xz >/dev/null; then
    echo "release/relayd.xz can't be unpacked: xz isn't installed" >&2
    return 1
  fi
  if ! xz --decompress --stdout "$packed" >"$1" || [ "$(sum <"$1")" != "$(released program)" ]; then
    echo "release/relayd.xz is damaged: it doesn't have the program of release/SOURCES" >&2
    return 1
  fi
  chmod +x "$1"
}

# Whether the released program is unpacked, and since then nothing was changed or put in place, however old it is, of what
# decides whether it is taken: the folders of relayd's crates, the files that name them, SOURCES, and README.md.
is_unpacked() {
  [ -x "$unpacked" ] && [ -e "$sums" ] && newer=$(cd "$top" && find README.md release/SOURCES crates.txt HANDLES \
    "${crates[@]/#/crates/}" -name out -prune -o -cnewer "$unpacked" -print -quit) && [ -z "$newer" ]
}

# Puts the released program in its place, whole, and as old as the moment before the sources were read. Says why, where it
# isn't taken.
take_release() {
  [ -e "$sums" ] && mkdir -p "${unpacked%/*}" && room=$(mktemp -d "$unpacked.XXXXXX") || return 1
  trap 'rm -rf "$room"' EXIT
  touch "$room/began"
  if ! is_of_these_sources; then
    echo "relayd: release/ has the program of other sources, or of another kit" >&2
    return 1
  fi
  if [ -x "$unpacked" ] && [ "$(sum <"$unpacked")" = "$(released program)" ]; then
    touch -r "$room/began" "$unpacked"
    return
  fi
  unpack "$room/relayd" || return 1
  if ! "$room/relayd" --help </dev/null >/dev/null 2>&1; then
    echo "relayd: the program of release/ doesn't start on this machine" >&2
    return 1
  fi
  touch -r "$room/began" "$room/relayd" && mv "$room/relayd" "$unpacked" || return 1
  echo "relayd: this is the program of release/, which was proved elsewhere;" \
    "./relayd --prove proves and builds it here, as ./test does" >&2
}

# Prints the program that ./relayd runs; proves and builds it first where none is there.
program_to_run() {
  if is_built; then
    echo "$program"
  elif is_unpacked || take_release; then
    echo "$unpacked"
  else
    "$top/tests/build.sh" >&2
    echo "$program"
  fi
}

# Compares the released program with the one that is built here. One of other sources, or none, is no failure.
check() {
  room=$(mktemp -d)
  trap 'rm -rf "$room"' EXIT
  if [ -e "$sums" ] || [ -e "$packed" ]; then
    unpack "$room/relayd" || exit 1
  fi
  if [ ! -e "$sums" ] || ! is_of_these_sources; then
    echo "release/ has the program of other sources, or none: tests/release.sh --update brings it up to date"
  elif [ -x "$program" ] && cmp "$room/relayd" "$program"; then
    echo "release/ has the program that is built here, byte for byte"
  else
    fail "release/ has another program than the one that is built here of the same sources, by the kit $(found_kit)"
  fi
}

# Makes the program that is built here the released one.
update() {
  [ -x "$program" ] || fail "${program#"$top"/} isn't built: ./test or ./relayd --prove builds it"
  is_built || fail "$newer is newer than ${program#"$top"/}: ./test or ./relayd --prove builds it again"
  [ "$(found_kit)" = "$(wanted_kit)" ] || fail "README.md names the kit $(wanted_kit), and this one is $(found_kit)"
  room=$(mktemp -d)
  trap 'rm -rf "$room"' EXIT
  if [ -e "$sums" ] && is_of_these_sources && unpack "$room/relayd" && cmp --quiet "$room/relayd" "$program"; then
    echo "release/ is up to date"
    return
  fi
  mkdir -p "$top/release"
  {
    echo "program $(sum <"$program")"
    echo "sources $(sums_of_sources | sum)"
    echo "kit $(wanted_kit)"
  } >"$room/SOURCES"
  xz -9 --threads=1 --stdout "$program" >"$room/relayd.xz"
  mv "$room/SOURCES" "$room/relayd.xz" "$top/release"
  echo "release/ is brought up to date: SOURCES, and relayd.xz of $(wc -c <"$packed") bytes"
}

case ${1:-} in
--program) program_to_run ;;
--check) check ;;
--update) update ;;
--sources) sums_of_sources ;;
*) fail "usage: tests/release.sh --program, --check, --update or --sources" ;;
esac
