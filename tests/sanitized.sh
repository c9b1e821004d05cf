# Sourced by test scripts that run programs built with the sanitizers.

# sanitized DIRECTORY: a report has a status that no command answers; one on addresses also goes to a file there, so that it is seen of
# a program in a pipe too
sanitized() {
  mkdir -p "$1" && chmod 777 "$1"
  export ASAN_OPTIONS=exitcode=99:log_path=$1/report UBSAN_OPTIONS=exitcode=99
}

# unreported DIRECTORY: no program has left a report there
unreported() {
  compgen -G "$1/report.*" >/dev/null || return 0
  head -n 20 "$1"/report.*
  return 1
}
