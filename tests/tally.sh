# Sourced by test scripts: tests that pass and fail are counted, and the last line says how many.
passed=0
failed=0

# test_that WHAT COMMAND..
test_that() {
  local what=$1
  shift
  if "$@"; then
    passed=$((passed + 1))
  else
    failed=$((failed + 1))
    echo "FAILED: $what"
  fi
}

tally() {
  echo "$passed passed, $failed failed"
  [ "$failed" -eq 0 ] && [ "$passed" -gt 0 ]
}
