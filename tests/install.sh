#!/usr/bin/env bash
# Tests install.sh, and what it installs by compiling and running the examples in C: bash tests/install.sh. Needs rt, cc, g++ and
# pkg-config; clang and clang++ are tried too if they are there. Last line: "N passed, M failed".
set -u
export LC_ALL=C
. "$(dirname "$0")/counting.sh" || exit 2
cd "$(dirname "$0")/.." || exit 2
work=$(mktemp -d)
trap 'rm -rf "$work"' EXIT
err=$work/err
library=crates/bucketmonk_c/out/libbucketmonk_c.a

# holds NAME COMMAND..: the command succeeds
holds() {
  local name=$1
  shift
  if "$@"; then pass; else fail "$name"; fi
}

# says NAME EXPECTED COMMAND..: the command succeeds and writes this; a space may follow
says() {
  local name=$1 expected=$2 found status
  shift 2
  found=$("$@" 2>"$err")
  status=$?
  if [ "$status" -eq 0 ] && [ "${found% }" = "$expected" ]; then pass; else fail "$name: status $status, writes $found $(cat "$err")"; fi
}

# stops NAME STATUS MESSAGE COMMAND..: the command ends with this status, and its standard error has the message
stops() {
  local name=$1 expected=$2 message=$3 status
  shift 3
  "$@" >/dev/null 2>"$err"
  status=$?
  if [ "$status" -ne "$expected" ]; then
    fail "$name: status $status"
  elif ! grep -qF -- "$message" "$err"; then
    fail "$name: writes $(cat "$err")"
  else
    pass
  fi
}

files() { find "$1" -type f -printf '%P\n' | sort; }

# Installed.
if ! bash install.sh "$work/prefix" >"$work/log" 2>&1; then
  cat "$work/log"
  fail "install.sh"
  end
fi
three=$(printf '%s\n' include/bucketmonk.h lib/libbucketmonk_c.a lib/pkgconfig/bucketmonk.pc)
says "installed files" "$three" files "$work/prefix"
holds "the installed header" cmp include/bucketmonk.h "$work/prefix/include/bucketmonk.h"
holds "the installed library" cmp "$library" "$work/prefix/lib/libbucketmonk_c.a"

# With an rt that does nothing, the library being built, and one that fails.
mkdir "$work/done" "$work/fails" "$work/empty"
printf '#!/bin/sh\nexit 0\n' >"$work/done/rt"
printf '#!/bin/sh\nexit 1\n' >"$work/fails/rt"
chmod +x "$work/done/rt" "$work/fails/rt"
holds "DESTDIR" env DESTDIR="$work/stage" PATH="$work/done:$PATH" bash install.sh >"$work/log"
says "files under DESTDIR and /usr/local" "$three" files "$work/stage/usr/local"
says "the prefix beside DESTDIR" prefix=/usr/local grep ^prefix= "$work/stage/usr/local/lib/pkgconfig/bucketmonk.pc"
stops "rt fails" 1 "nothing is installed" env PATH="$work/fails:$PATH" bash install.sh "$work/not"
says "no files where rt fails" "" files "$work/not"
stops "no rt" 1 "rt is not on PATH" env PATH="$work/empty" "$BASH" install.sh "$work/not"
stops "a prefix in a file" 1 "cannot make the directories" bash install.sh "$work/log/prefix"
stops "a space in the prefix" 2 "may stand in the prefix" bash install.sh "$work/not this"
stops "two arguments" 2 usage: bash install.sh "$work/not" "$work/not"
stops "an option" 2 usage: bash install.sh --help
stops "an empty argument" 2 usage: bash install.sh ""

# The package and the versions.
export PKG_CONFIG_PATH=$work/prefix/lib/pkgconfig
read -ra compile < <(pkg-config --cflags bucketmonk)
read -ra link < <(pkg-config --libs bucketmonk)
version=$(echo BUCKETMONK_VERSION | cc -E -P "${compile[@]}" -include bucketmonk.h - | tail -n 1 | tr -d '"')
says "the version of the package" "$version" pkg-config --modversion bucketmonk
says "the version of the program" "bucketmonk $version" timeout 10 crates/bucketmonk/out/bucketmonk --version </dev/null
elsewhere="-I/elsewhere/include -L/elsewhere/lib -lbucketmonk_c"
says "another prefix" "$elsewhere" pkg-config --define-variable=prefix=/elsewhere --cflags --libs bucketmonk

# The header, included twice, and its own functions.
strict=(-Wall -Wextra -Wpedantic -Werror)
printf '#include <bucketmonk.h>\n#include <bucketmonk.h>\n' >"$work/alone.c"
# header LANGUAGE STANDARDS COMPILER..: each compiler that there is accepts it in each standard, and refuses it for 32 bits
header() {
  local language=$1 standards=$2 compiler standard all
  shift 2
  for compiler in "$@"; do
    command -v "$compiler" >/dev/null || continue
    for standard in $standards; do
      all=("$compiler" -x "$language" "-std=$standard" "${strict[@]}" "${compile[@]}")
      holds "the header, $compiler, $standard" "${all[@]}" -fsyntax-only "$work/alone.c"
    done
    holds "64 bits, $compiler" "${all[@]}" -m64 -ffreestanding -fsyntax-only "$work/alone.c"
    stops "32 bits, $compiler" 1 "needs a size_t of 64 bits" "${all[@]}" -m32 -ffreestanding -fsyntax-only "$work/alone.c"
    holds "tests/header.c, $compiler" "${all[@]}" tests/header.c -o "$work/header"
    holds "the functions of the header, $compiler" "$work/header"
    rm -f "$work/header"
  done
}
header c "c99 c11 c17" cc clang
header c++ "c++11 c++14 c++17 c++20" g++ clang++

# The examples, as C and as C++.
# reads: what the example text prints for some of the example texts, then for 513 terms, propositions and questions
reads() {
  local name line
  for name in whole w08; do "$work/text" <"examples/texts/$name.txt" || return; done
  for name in 04 05 06 07 09 10; do refuses <"examples/texts/refused_$name.txt" || return; done
  seq 0 512 | xargs printf '02%04X\n' | refuses || return
  for line in 110000000000000000 210000000000000000; do
    { echo 020000; yes "$line" | head -n 513; } | refuses || return
  done
}
refuses() { "$work/text"; [ $? -eq 1 ]; }
# writes: the example output writes what the program does
writes() {
  local text
  for text in examples/texts/*.txt; do
    "$work/output" <"$text" | cmp - "${text%.txt}.out" || return 1
  done
}
# examples COMPILER..: each prints what is stored
examples() {
  local name
  for name in whole text blame output; do
    holds "compiled, $name, $1" "$@" "${strict[@]}" -O2 "${compile[@]}" "examples/c/$name.c" "${link[@]}" -o "$work/$name"
  done
  says "whole, $1" "$(cat examples/c/whole.out)" "$work/whole"
  says "blame, $1" "$(cat examples/c/blame.out)" "$work/blame"
  says "text, $1" "$(cat examples/c/text.out)" reads
  holds "output, $1" writes
  rm -f "$work"/{whole,text,blame,output}
}
examples cc -std=c99
examples g++ -x c++ -std=c++11

# Every function of the header is called by an example, and every function of the library is in the header. Without optimisation, the
# object file names the functions that are called, inline ones too.
declared() { grep -oE '\bbucketmonk_[a-z_]+\(' include/bucketmonk.h | tr -d '(' | sort -u; }
called() {
  local source
  for source in examples/c/*.c; do
    cc -O0 -c "${compile[@]}" "$source" -o "$work/example.o" && nm "$work/example.o"
  done | awk '{print $NF}' | sort -u
}
exported() { nm -g --defined-only "$library" | awk '$2 == "T" {print $3}' | sort; }
says "functions that no example calls" "" comm -23 <(declared) <(called)
says "functions that the header lacks" "" comm -13 <(declared) <(exported)
[ "$(exported | wc -l)" -ge 5 ] || fail "fewer than 5 functions in the library"

end
