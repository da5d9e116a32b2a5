#!/usr/bin/env bash
# Compiles a C function to a program of relayd, and verifies it: examples/c/build.sh FILE.c OUT.bpf
#
# Beside OUT.bpf is written which line of C each of its instructions is from: OUT.lines, for the option --lines of relayd's commands.
# CLANG, OBJCOPY, OBJDUMP and READELF name LLVM's programs, RELAYD the relay's, and CFLAGS further options of the compiler, as -O1 or -mcpu=v3.
# BPF_CC names GCC's compiler for BPF, which is taken in place of clang.
set -euo pipefail
here=$(cd "$(dirname "$0")" && pwd)
clang=${CLANG:-clang} objcopy=${OBJCOPY:-llvm-objcopy} objdump=${OBJDUMP:-llvm-objdump} readelf=${READELF:-llvm-readelf}
# the one of the repository, or, where a package has these examples, the one that is installed
relayd=$here/../../relayd
[ -x "$relayd" ] || relayd=relayd
relayd=${RELAYD:-$relayd}

fail() {
  echo "$1" >&2
  exit 1
}

# The source map of an object file: each instruction with the line that it is from, and its text. A line that is named once is that of
# the instructions after it, too.
source_map() {
  "$objdump" --disassemble --line-numbers --no-show-raw-insn "$1" | awk -v folder="$PWD/" '
    function read_texts(file, line) {
      for (last[file] = 0; (getline line <file) > 0;) texts[file, ++last[file]] = line
      close(file)
    }
    /^; .+:[0-9]+$/ {
      match($0, /:[0-9]+$/)
      file = substr($0, 3, RSTART - 3)
      number = substr($0, RSTART + 1)
      if (!(file in last)) read_texts(file)
      name = index(file, folder) == 1 ? substr(file, length(folder) + 1) : file
      sub(/^[.]\//, "", name)
      gsub(/[ \t]/, "_", name)
      text = texts[file, number]
      gsub(/^[ \t]+|[ \t]+$/, "", text)
      place = name ":" number (text == "" ? "" : " " text)
    }
    /^ *[0-9]+:\t/ && place != "" { print $1 + 0, place }'
}

# Ends with the line of C that a refusal names, from the slot in its first line and the source map.
show_line() {
  slot=$(sed -n '1s/^refused .* at \([0-9]*\).*/\1/p' "$1")
  [ -z "$slot" ] || sed -n "s/^$slot \([^ ]*\) \(.*\)/\1: \2/p" "$2" >&2
  exit 1
}

[ $# -eq 2 ] || fail "usage: $0 FILE.c OUT.bpf"
if [ -n "${BPF_CC:-}" ]; then
  command -v "$BPF_CC" >/dev/null || fail "$BPF_CC is needed: it is GCC's compiler for BPF"
  compiler=("$BPF_CC")
else
  # a loop that isn't unrolled is an error, of which clang names the line where remarks are asked for: here those of no pass
  compiler=("$clang" -target bpf -Werror=pass-failed '-Rpass=^$')
fi
for tool in "${compiler[0]}" "$objcopy" "$objdump" "$readelf"; do
  command -v "$tool" >/dev/null || fail "$tool is needed: it is a part of LLVM"
done
folder=$(mktemp -d)
trap 'rm -rf "$folder"' EXIT
object=$folder/program.o program=$folder/program.bpf map=$folder/program.lines lines=${2%.bpf}.lines said=$folder/said
read -ra flags <<<"-O2 ${CFLAGS:-}"
"${compiler[@]}" -g -I "$here" "${flags[@]}" -Wall -Wextra -c "$1" -o "$object" || fail "$1 is not compiled"

# what lies outside of the function is in the way only where an instruction refers to it
named=$("$readelf" -r --wide "$object" |
  awk '/^Relocation section/ { text = /[.]rel[.]text/ } text && /R_BPF/ { print $NF }' | sort -u | tr '\n' ' ')
if [ -n "$named" ]; then
  fail "$1 names something outside of its function, ${named% }: a variable, a constant, a string or a function that is not INLINE"
fi
functions=$("$readelf" -s --wide "$object" | awk '$4 == "FUNC" { print $8 }')
if [ "$(wc -w <<<"$functions")" -ne 1 ]; then
  fail "$1 has several functions, and a program is one: make $(tr '\n' ' ' <<<"$functions")INLINE but for one"
fi
"$objcopy" -O binary --only-section=.text "$object" "$program"
# an indirect call has the opcode 0x8d
slot=$(od -An -v -tx1 -w8 "$program" | awk '$1 == "8d" { print NR - 1; exit }')
if [ -n "$slot" ]; then
  fail "$1 calls what a pointer names, at slot $slot: a call names its helper itself, as in
    a ? f(ctx, x) : g(ctx, x), and not (a ? f : g)(ctx, x)"
fi
source_map "$object" >"$map"
# clang shares blocks, and puts some before their users: jumps have to lead forward
"$relayd" order "$program" "$2" --from "$map" --lines "$lines" 2>"$said" >"$folder/length" || {
  cat "$said" >&2
  show_line "$said" "$map"
}
"$relayd" verify "$2" --lines "$lines" >"$said" || {
  cat "$said"
  show_line "$said" "$lines"
}
cat "$said"
