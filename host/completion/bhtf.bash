# Completion of the command bhtf for bash. Commands and options are those that
# bhtf itself names; names of points are those of the file.

_bhtf_commands() { "$1" --help 2>/dev/null | sed -n 's/^  bhtf \([a-z-]*\) .*/\1/p'; }

_bhtf_options() {
  "$1" help "$2" 2>/dev/null | sed -n 's/^  *\(-[A-Za-z], \)\{0,1\}\(--[a-z-]*\).*/\2/p'
  echo --help
}

# The options of a command that a value follows, between blanks.
_bhtf_valued() {
  "$1" help "$2" 2>/dev/null |
    sed -n 's/^  *\(\(-[A-Za-z]\), \)\{0,1\}\(--[a-z-]*\) [A-Z].*/ \2 \3 /p' | tr -d '\n'
}

# The words before the one to complete that are neither options nor values
# of options, one a line: the command, the file, what follows it.
_bhtf_plain() {
  local i valued=' ' previous=
  valued=$(_bhtf_valued "${COMP_WORDS[0]}" "${COMP_WORDS[1]:-}")
  for ((i = 1; i < COMP_CWORD; i++)); do
    if [[ ${COMP_WORDS[i]} != -* && ( -z $previous || $valued != *" $previous "* ) ]]; then
      printf '%s\n' "${COMP_WORDS[i]}"
      previous=
    else
      [[ ${COMP_WORDS[i]} == -* ]] && previous=${COMP_WORDS[i]} || previous=
    fi
  done
}

_bhtf() {
  local program=${COMP_WORDS[0]} command=${COMP_WORDS[1]:-} current=${COMP_WORDS[COMP_CWORD]}
  local previous=${COMP_WORDS[COMP_CWORD - 1]} place words=() plain=()
  COMPREPLY=()
  mapfile -t plain < <(_bhtf_plain)
  place=$((${#plain[@]} + 1))
  if [ "$COMP_CWORD" -eq 1 ] || { [ "$command" = help ] && [ "$COMP_CWORD" -eq 2 ]; }; then
    mapfile -t words < <(_bhtf_commands "$program")
    [ "$command" = help ] && [ "$COMP_CWORD" -eq 2 ] || words+=(help --help --version)
  elif [[ $current == -* ]]; then
    mapfile -t words < <(_bhtf_options "$program" "$command")
  else
    case $previous in
      --columns | -c) words=(PNEZD PENZD "name,easting,northing,height,note") ;;
      --delimiter | -d) words=(comma semicolon tab blank) ;;
      --encoding) words=(utf-8 windows-1252 utf-16 bytes) ;;
      --drop) words=(easting,northing height note text) ;;
      --decimal) words=(comma point) ;;
      --by | -b) words=(name slot) ;;
      --format) words=(1.0.2 1.0.1 1.0.0 2.0.0) ;;
      --epoch-unit) words=(day week) ;;
      --paper | -p) words=(A4 A3 A2 A1 A0) ;;
      --project | --datum | --sheet) ;;
      --delta | --text-file) compopt -o default 2>/dev/null ;;
      *)
        if { [ "$place" -eq 3 ] && [[ $command =~ ^(delete|withdraw|add|set|rename|log)$ ]]; } ||
          { [ "$place" -gt 2 ] && [[ $command =~ ^(get|figure|list|delete|export|plot)$ ]]; }; then
          mapfile -t words < <("$program" list "${plain[1]}" --wait 0 2>/dev/null)
        else
          compopt -o default 2>/dev/null
        fi
        ;;
    esac
  fi
  local word
  for word in "${words[@]}"; do
    [[ $word == "$current"* ]] && COMPREPLY+=("$(printf %q "$word")")
  done
}

complete -F _bhtf bhtf
