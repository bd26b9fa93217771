#!/usr/bin/env bash
# Tests the program: bash tests/program.sh PROGRAM, where `rt run` in crates/bucketmonk builds crates/bucketmonk/out/bucketmonk.
# Last line: "N passed, M failed".
# Every run ends within 10 seconds or has failed. A run that succeeds has status 0 and writes nothing to standard error; one whose reading
# or writing fails, or whose arguments are refused, tells why there (its status is 0 too: docs/DECISIONS.md, 19).
set -u
export LC_ALL=C
. "$(dirname "$0")/counting.sh" || exit 2

if [ $# -ne 1 ] || ! program=$(realpath -e -- "$1" 2>/dev/null) || [ ! -f "$program" ] || [ ! -x "$program" ]; then
  fail "no program: ${1-}"
  end
fi
cd "$(dirname "$0")/../examples/texts" || exit 2
work=$(mktemp -d)
trap 'rm -rf "$work"' EXIT
out=$work/out
err=$work/err

# wrote NAME STATUS EXPECTED: a run that left $out and $err succeeded and wrote the file EXPECTED
wrote() {
  if [ "$2" -ne 0 ]; then
    fail "$1: status $2"
  elif ! cmp -s "$out" "$3"; then
    fail "$1: $(cmp "$out" "$3" 2>&1 | head -n 1); it begins with $(head -n 1 "$out" | head -c 60)"
  elif [ -s "$err" ]; then
    fail "$1: writes to standard error"
  else
    pass
  fi
}

# broke NAME STATUS [told]: a run ended with status 0 and wrote why to standard error; without "told", a signal may have ended it instead
broke() {
  if [ "$2" -ge 124 ] && [ "$2" -le 127 ]; then
    fail "$1: does not end, or does not run (status $2)"
  elif [ "$2" -ne 0 ] && { [ "${3-}" = told ] || [ "$2" -lt 128 ]; }; then
    fail "$1: status $2"
  elif [ ! -s "$err" ] && { [ "${3-}" = told ] || [ "$2" -lt 128 ]; }; then
    fail "$1: no message"
  else
    pass
  fi
}

# from NAME FILE EXPECTED: input from a file
from() {
  timeout 10 "$program" <"$2" >"$out" 2>"$err"
  wrote "$1" $? "$3"
}

# piped NAME EXPECTED COMMAND..: input from a pipe that the command writes to; a part of it may not be read
piped() {
  local name=$1 expected=$2
  shift 2
  "$@" 2>/dev/null | timeout 10 "$program" >"$out" 2>"$err"
  wrote "$name" "${PIPESTATUS[1]}" "$expected"
}

# frames COUNT LINE: so many lines; each "%04X" in LINE becomes the number of the line
frames() {
  local k number
  for ((k = 0; k < $1; k++)); do
    printf -v number %04X "$k"
    echo "${2//%04X/$number}"
  done
}

# says FILE LINE..: a file of these lines
says() {
  local file=$1
  shift
  printf '%s\n' "$@" >"$file"
}

# The examples.
count=0
for text in *.txt; do
  from "$text from a file" "$text" "${text%.txt}.out"
  piped "$text from a pipe" "${text%.txt}.out" cat "$text"
  count=$((count + 1))
done
[ "$count" -ge 19 ] || fail "only $count examples"

# No input.
says "$work/nothing" A000
from "empty input" /dev/null "$work/nothing"
piped "an empty pipe" "$work/nothing" true

# Full sets. Term k is 1 + term k - 1; question k asks for term k against k + term 0: the largest output.
{
  frames 512 '02%04X'
  for ((k = 1; k < 512; k++)); do printf '11%04X00000001%04X\n' "$k" $((k - 1)); done
  for ((k = 0; k < 512; k++)); do printf '21%04X%08X0000\n' "$k" "$k"; done
} >"$work/full.txt"
{
  echo A000
  for ((k = 0; k < 512; k++)); do printf 'A1%04X0000%016X\n' "$k" "$k"; done
  frames 512 'A3%04X01'
} >"$work/full.out"
[ "$(wc -c <"$work/full.out")" -eq 18437 ] || fail "full.out is not the largest output"
from "the largest output" "$work/full.txt" "$work/full.out"
# A longest accepted text.
{
  echo 020000
  frames 511 '03%04X00000004'
  frames 512 120000000000010000
  frames 512 210000000000000000
} >"$work/longest.txt"
{
  echo A000
  frames 512 'A1%04X%04X0000000000000000'
  frames 512 'A3%04X01'
} >"$work/longest.out"
[ "$(wc -c <"$work/longest.txt")" -eq 27128 ] || fail "longest.txt is not a longest text"
from "the longest text" "$work/longest.txt" "$work/longest.out"

# One record too many, and what follows.
frames 513 '01%04X' >"$work/terms.txt"
says "$work/terms.out" A4010200
{ echo 020000; frames 513 110000000000000000; } >"$work/propositions.txt"
says "$work/propositions.out" A4020201
{ echo 020000; frames 3000 210000000000000000; } >"$work/questions.txt"
says "$work/questions.out" A4030201
for table in terms propositions questions; do
  from "too many $table" "$work/$table.txt" "$work/$table.out"
done

# An accepted text with much after it, and a fault with much after it: the first fault counts.
says "$work/after_whole.out" A4090009
says "$work/after_longest.out" A4090600
for length in 32767 32768 32769 50000 5000000; do
  { cat whole.txt; yes 'no frame'; } 2>/dev/null | head -c "$length" >"$work/after_whole.txt"
  { cat "$work/longest.txt"; yes 'no frame'; } 2>/dev/null | head -c "$length" >"$work/after_longest.txt"
  { cat refused_order.txt; yes 020001; } 2>/dev/null | head -c "$length" >"$work/order.txt"
  for text in after_whole after_longest; do
    from "$text, $length bytes from a file" "$work/$text.txt" "$work/$text.out"
    piped "$text, $length bytes from a pipe" "$work/$text.out" cat "$work/$text.txt"
  done
  from "a fault, then $length bytes" "$work/order.txt" refused_order.out
  { head -c "$length" /dev/zero | tr '\0' 0; } >"$work/line.txt"
  says "$work/line.out" A4090000
  from "a line of $length bytes" "$work/line.txt" "$work/line.out"
done

# Input in pieces.
# pieces FILE BYTES..: the file, with a pause after each of these numbers of bytes
pieces() {
  local file=$1 at=0 next
  shift
  for next in "$@"; do
    tail -c +$((at + 1)) "$file" | head -c $((next - at))
    sleep 0.1
    at=$next
  done
  tail -c +$((at + 1)) "$file"
}
# bytes FILE: one byte at a time
bytes() {
  local text k
  text=$(cat "$1"; echo .)
  text=${text%.}
  for ((k = 0; k < ${#text}; k++)); do
    printf %s "${text:k:1}"
    sleep 0.002
  done
}
for cut in 0 1 6 7 8 10 50 129; do
  piped "whole.txt in two pieces at $cut" whole.out pieces whole.txt "$cut"
done
piped "whole.txt, a pause before the end of input" whole.out pieces whole.txt "$(wc -c <whole.txt)"
piped "whole.txt byte by byte" whole.out bytes whole.txt
piped "refused_09_no_lf.txt byte by byte" refused_09_no_lf.out bytes refused_09_no_lf.txt
piped "the longest text in pieces" "$work/longest.out" pieces "$work/longest.txt" 1 4095 4096 8193 16384 27127
piped "5,000,000 bytes in pieces" "$work/after_longest.out" pieces "$work/after_longest.txt" 27128 32767 32768 32769 100000

# Reading fails.
# unread NAME STATUS: a run that could not read has failed and written nothing
unread() {
  if [ -s "$out" ]; then fail "$1: writes $(head -c 60 "$out")"; else broke "$1" "$2" told; fi
}
timeout 10 "$program" <&- >"$out" 2>"$err"
unread "standard input closed" $?
timeout 10 "$program" <. >"$out" 2>"$err"
unread "a directory as standard input" $?
timeout 10 "$program" 0>"$work/unreadable" >"$out" 2>"$err"
unread "standard input open for writing only" $?

# Writing fails: a short output, a refusal, the largest.
for text in w01.txt refused_10.txt "$work/full.txt"; do
  name=${text##*/}
  timeout 10 "$program" <"$text" >&- 2>"$err"
  broke "standard output closed, $name" $? told
  timeout 10 "$program" <"$text" >/dev/full 2>"$err"
  broke "/dev/full, $name" $? told
  timeout 10 "$program" <"$text" 1</dev/null 2>"$err"
  broke "standard output open for reading only, $name" $? told
  # a pipe whose reader has gone
  exec 3> >(:)
  wait $!
  timeout 10 "$program" <"$text" >&3 2>"$err"
  broke "the reader has gone, $name" $?
  (trap '' PIPE; exec timeout 10 "$program" <"$text" >&3 2>"$err")
  broke "the reader has gone and SIGPIPE is ignored, $name" $? told
  exec 3>&-
  # readers that go away at once, or early: the program comes to an end
  timeout 10 "$program" <"$text" 2>"$err" | true
  status=${PIPESTATUS[0]}
  if [ "$status" -lt 124 ] || [ "$status" -eq 141 ]; then pass; else fail "a reader that goes away, $name: status $status"; fi
  timeout 10 "$program" <"$text" 2>"$err" | head -c 3 >"$out"
  status=${PIPESTATUS[0]}
  if [ "$status" -ge 124 ] && [ "$status" -ne 141 ]; then
    fail "a reader of 3 bytes, $name: status $status"
  elif [ "$name" = refused_10.txt ]; then
    if [ "$(cat "$out")" = A40 ]; then pass; else fail "a reader of 3 bytes, $name"; fi
  else
    if [ "$(cat "$out")" = A00 ]; then pass; else fail "a reader of 3 bytes, $name"; fi
  fi
done
# only the first 8,192 bytes of the output have room
for trap in - ''; do
  { (ulimit -f 8; trap "$trap" XFSZ; exec timeout 10 "$program" <"$work/full.txt" >"$out" 2>"$err"); } 2>/dev/null
  broke "a file that is full, signal '$trap'" $?
  if [ -s "$out" ] && cmp -s "$out" <(head -c "$(wc -c <"$out")" "$work/full.out"); then
    pass
  else
    fail "a file that is full, signal '$trap': what it has is not the start of the output"
  fi
done

# Output in pieces.
# read_by NAME COMMAND..: the largest output through a pipe that the command reads
read_by() {
  local name=$1
  shift
  timeout 10 "$program" <"$work/full.txt" 2>"$err" | "$@" >"$out"
  wrote "$name" "${PIPESTATUS[0]}" "$work/full.out"
}
late() { sleep 0.5; cat; }
slow() { while head -c 2000 >"$work/piece" && [ -s "$work/piece" ]; do cat "$work/piece"; sleep 0.02; done; }
read_by "a reader that begins late" late
read_by "a slow reader" slow
read_by "a reader of single bytes" dd bs=1 status=none
# The pipe is almost full before the program writes. The second time the program is stopped and continued while it waits to write the
# rest, so that a part of its output is taken.
for stopped in no yes; do
  {
    head -c 60000 /dev/zero
    timeout 10 bash -c 'echo $$ >"$1.new" && mv "$1.new" "$1" && exec "$2"' - "$work/pid" "$program" <"$work/full.txt" 2>"$err"
    echo $? >"$work/status"
  } | { sleep 0.8; tail -c +60001; } >"$out" &
  if [ "$stopped" = yes ]; then
    for ((k = 0; k < 200; k++)); do [ -s "$work/pid" ] && break; sleep 0.02; done
    sleep 0.3
    kill -STOP "$(cat "$work/pid")" 2>/dev/null
    sleep 0.1
    kill -CONT "$(cat "$work/pid")" 2>/dev/null
  fi
  wait $!
  wrote "a pipe almost full, stopped: $stopped" "$(cat "$work/status")" "$work/full.out"
  rm -f "$work/pid" "$work/status"
done

# Arguments.
# given NAME EXPECTED TOLD ARGUMENT..: a run with these arguments wrote the file EXPECTED, told the file TOLD and read nothing
given() {
  local name=$1 expected=$2 told=$3 status
  shift 3
  { timeout 10 "$program" "$@" >"$out" 2>"$err"; status=$?; cat >"$work/unread"; } <whole.txt
  if [ $status -ne 0 ]; then
    fail "$name: status $status"
  elif ! cmp -s "$out" "$expected"; then
    fail "$name: writes $(head -c 60 "$out")"
  elif ! cmp -s "$err" "$told"; then
    fail "$name: tells $(head -n 1 "$err" | head -c 120)"
  elif ! cmp -s "$work/unread" whole.txt; then
    fail "$name: reads its input"
  else
    pass
  fi
}
# unknown NAME ARGUMENT [SHOWN]: the message names an argument that is not known, or as much of it as is shown
unknown() {
  says "$work/told" "bucketmonk: unknown argument: ${3-$2}" 'try bucketmonk --help'
  given "$1" /dev/null "$work/told" "$2"
}
says "$work/version" 'bucketmonk 0.2.0'
given "--version" "$work/version" /dev/null --version
timeout 10 "$program" --help </dev/null >"$work/help"
given "--help" "$work/help" /dev/null --help
says "$work/usage" 'usage: bucketmonk <TEXT' '       bucketmonk --help' '       bucketmonk --version'
if head -n 3 "$work/help" | cmp -s - "$work/usage"; then pass; else fail "--help: the first lines"; fi
for part in 'standard input' 'standard output' 'standard error' 512 32,768 README.md 'exit status'; do
  if grep -qF -- "$part" "$work/help"; then pass; else fail "--help: no word of $part"; fi
done
if [ "$(wc -L <"$work/help")" -le 80 ]; then pass; else fail "--help: long lines"; fi
for argument in x '' - -- -h -help --Help --hel --helpp --help= ' --help' '--help ' $'--help\n' --versio --versions whole.txt; do
  unknown "the argument '$argument'" "$argument"
done
unknown "an argument that is no UTF-8" $'\xff\xc3\x28--help\x80'
long=$(head -c 100000 /dev/zero | tr '\0' a)
for length in 63 64 65 4096 100000; do
  unknown "an argument of $length bytes" "${long:0:length}" "${long:0:length < 64 ? length : 64}"
done
unknown "a long argument that begins with --help" "--help$long" "--help${long:0:58}"
says "$work/several" 'bucketmonk: more than one argument' 'try bucketmonk --help'
given "--help and another" /dev/null "$work/several" --help x
given "--help twice" /dev/null "$work/several" --help --help
given "another and --version" /dev/null "$work/several" x --version
given "two empty arguments" /dev/null "$work/several" '' ''
given "three long arguments" /dev/null "$work/several" "$long" "$long" "$long"
for argument in --help --version; do
  timeout 10 "$program" "$argument" </dev/null >/dev/full 2>"$err"
  broke "/dev/full, $argument" $? told
  timeout 10 "$program" "$argument" </dev/null >&- 2>"$err"
  broke "standard output closed, $argument" $? told
done
timeout 10 "$program" x <whole.txt >"$out" 2>&-
status=$?
if [ $status -eq 0 ] && [ ! -s "$out" ]; then pass; else fail "an unknown argument, standard error closed: status $status"; fi

# Calls that are interrupted, that move a part, that fail (tests/interposed.c).
cc -std=c99 -Wall -Wextra -Werror -O2 -shared -fPIC ../../tests/interposed.c -o "$work/interposed.so" || fail "interposed.c is not compiled"
# calls READ WRITE ARGUMENT..: the program, with what its reads and writes do
calls() {
  local reads=$1 writes=$2
  shift 2
  timeout 10 env LD_PRELOAD="$work/interposed.so" READ="$reads" WRITE="$writes" "$program" "$@"
}
# told NAME STATUS MESSAGE SIZE EXPECTED: a run ended with status 0, told this message, and wrote so many bytes from the start of the file
# EXPECTED
told() {
  if [ "$2" -ne 0 ]; then
    fail "$1: status $2"
  elif [ "$(cat "$err")" != "$3" ]; then
    fail "$1: tells '$(head -n 1 "$err")'"
  elif ! cmp -s "$out" <(head -c "$4" "$5"); then
    fail "$1: writes $(head -c 60 "$out")"
  else
    pass
  fi
}
printf -v often 'i%.0s' {1..5000}
printf -v short 's%.0s' {1..5000}
printf -v both 'is%.0s' {1..5000}
for text in whole.txt refused_10.txt "$work/full.txt"; do
  for letters in i iii s sisi "$often" "$short" "$both"; do
    name="${text##*/}, calls ${letters:0:10}"
    calls "$letters" '' <"$text" >"$out" 2>"$err"
    wrote "$name, reads" $? "${text%.txt}.out"
    calls '' "$letters" <"$text" >"$out" 2>"$err"
    wrote "$name, writes" $? "${text%.txt}.out"
    calls "$letters" "$letters" <"$text" >"$out" 2>"$err"
    wrote "$name, both" $? "${text%.txt}.out"
  done
done
for letters in e ie iiie se sie siiie; do
  calls "$letters" '' <whole.txt >"$out" 2>"$err"
  told "reads $letters" $? 'stdin: Input/output error (os error 5)' 0 whole.out
  size=0
  case $letters in s*) size=7 ;; esac
  calls '' "$letters" <whole.txt >"$out" 2>"$err"
  told "writes $letters" $? 'stdout: Input/output error (os error 5)' $size whole.out
done
for letters in iii sisi; do
  for argument in help version; do
    calls '' "$letters" "--$argument" </dev/null >"$out" 2>"$err"
    wrote "--$argument, writes $letters" $? "$work/$argument"
  done
  calls '' "$letters$letters$letters" x </dev/null >"$out" 2>"$err"
  told "an unknown argument, writes $letters" $? $'bucketmonk: unknown argument: x\ntry bucketmonk --help' 0 /dev/null
done

# Signals that interrupt a read or a write that waits.
# started: the program, with a handler of SIGUSR1; $work/pid has its number, $work/log what tests/interposed.c tells
started() {
  timeout 10 bash -c 'echo $$ >"$1/pid" && exec env LD_PRELOAD="$1/interposed.so" LOG="$1/log" "$2"' - "$work" "$program"
}
# prod: signals to the program once it has started, until they have interrupted three calls more, or for 4 seconds
prod() {
  local k before
  touch "$work/log"
  before=$(grep -c interrupted "$work/log")
  for ((k = 0; k < 200 && $(grep -c interrupted "$work/log") < before + 3; k++)); do
    if [ -s "$work/log" ]; then kill -USR1 "$(cat "$work/pid")" 2>/dev/null; fi
    sleep 0.02
  done
}
# interrupted NAME COUNT: signals interrupted so many calls of the last run or more
interrupted() {
  local count
  count=$(grep -c interrupted "$work/log")
  if [ "$count" -ge "$2" ]; then pass; else fail "$1: $count calls were interrupted"; fi
  rm -f "$work/pid" "$work/log"
}
{ prod; head -c 50 whole.txt; prod; tail -c +51 whole.txt; } | started >"$out" 2>"$err"
wrote "reads that signals interrupt" "${PIPESTATUS[1]}" whole.out
interrupted "reads that signals interrupt" 6
# a full pipe, and one that has room for a part
for filled in 65536 60000; do
  {
    head -c $filled /dev/zero
    started <"$work/full.txt" 2>"$err"
    echo $? >"$work/status"
  } | { prod; tail -c +$((filled + 1)); } >"$out"
  wrote "writes that signals interrupt, $filled bytes in the pipe" "$(cat "$work/status")" "$work/full.out"
  interrupted "writes, $filled bytes in the pipe" 3
done

# Nothing but the input counts: twice, elsewhere, without environment, two at a time.
for text in "$PWD/whole.txt" "$PWD/w09.txt" "$work/full.txt"; do
  name=${text##*/}
  expected=${text%.txt}.out
  from "once, $name" "$text" "$expected"
  from "twice, $name" "$text" "$expected"
  (cd / && exec env -i timeout 10 "$program" <"$text" >"$out" 2>"$err")
  wrote "elsewhere without environment, $name" $? "$expected"
  timeout 10 "$program" <"$text" >"$work/other" 2>"$work/other_err" &
  timeout 10 "$program" <"$text" >"$out" 2>"$err"
  wrote "two at a time, $name" $? "$expected"
  wait $!
  status=$?
  mv "$work/other" "$out"
  mv "$work/other_err" "$err"
  wrote "two at a time, the other, $name" $status "$expected"
done

end
