# For the tests in bash: . tests/counting.sh. Counts what passes and what fails.
passed=0
failed=0

# end: the last line and the status
end() {
  echo "$passed passed, $failed failed"
  [ "$failed" -eq 0 ]
  exit
}

pass() { passed=$((passed + 1)); }
fail() { failed=$((failed + 1)); echo "FAIL $1"; }
