# Sourced by the checks of billing, concentrator and pieces, which have a function `fail` and name a folder in `made`.

# Runs a command whose output is a pipe that nobody reads, and prints its exit status.
no_reader='import os, subprocess, sys
reader, writer = os.pipe()
os.close(reader)
print(subprocess.run(sys.argv[1:], stdout=writer).returncode)'

# Tries a command whose standard output cannot be written, and perhaps standard error neither. The exit status must be 2.
unwritable() { # NAME COMMAND..: the name before the program's sentence
  local words="$1: standard output cannot be written to" status
  shift
  status=0 && "$@" >/dev/full 2>"$made/err" || status=$?
  [ $status = 2 ] || fail "a full disk: exit status $status"
  grep -qx "$words" "$made/err" || fail "a full disk: $(cat "$made/err")"
  status=0 && "$@" >/dev/full 2>/dev/full || status=$?
  [ $status = 2 ] || fail "a full disk for both: exit status $status"
  status=0 && "$@" >&- 2>"$made/err" || status=$?
  [ $status = 2 ] || fail "closed output: exit status $status"
  grep -qx "$words" "$made/err" || fail "closed output: $(cat "$made/err")"
  status=0 && "$@" >&- 2>&- || status=$?
  [ $status = 2 ] || fail "both closed: exit status $status"
  status=0 && "$@" 1</dev/null 2>"$made/err" || status=$?
  [ $status = 2 ] || fail "output open for reading: exit status $status"
  grep -qx "$words" "$made/err" || fail "output open for reading: $(cat "$made/err")"
  status=$(python3 -c "$no_reader" "$@" 2>"$made/err")
  [ "$status" = 2 ] || fail "a pipe that nobody reads: exit status $status"
  grep -qx "$words" "$made/err" || fail "a pipe that nobody reads: $(cat "$made/err")"
}
