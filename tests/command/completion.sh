# shellcheck shell=bash disable=SC2154,SC2059,SC2015,SC2034
# Sourced by tests/command.sh: completion for bash and zsh, on what was
# installed.

completed() { # LINE: what bash completes its last word to
  bash --norc -c '
    . "$1"
    read -ra COMP_WORDS <<<"$2"
    [[ $2 == *" " ]] && COMP_WORDS+=("")
    COMP_CWORD=$((${#COMP_WORDS[@]} - 1))
    _bhtf
    printf "%s\n" "${COMPREPLY[@]}"' - "$work/usr/share/bash-completion/completions/bhtf" "$1" | LC_ALL=C sort
}
bhtf create finish
bhtf add finish 'CP-1' x
bhtf add finish 'CP 2' x
bhtf add finish 'RP-3' x
same "bash: commands" $'check\ncompact\nconvert\ncopy\ncount\ncreate' "$(completed 'bhtf c')"
same "bash: every command" "$( (bhtf --help | sed -n 's/^  bhtf \([a-z-]*\) .*/\1/p'; echo help) | LC_ALL=C sort)" \
  "$(completed 'bhtf ' | grep -v '^-')"
same "bash: a command with a hyphen" store-records "$(completed 'bhtf sto')"
same "bash: help" $'dump' "$(completed 'bhtf help du')"
same "bash: options" $'--decimal\n--delimiter\n--delta\n--drop\n--dry-run' "$(completed 'bhtf import finish --d')"
none "bash: letters are no names of options" "$(completed 'bhtf count finish --long')"
same "bash: names of points" $'CP-1\nCP\\ 2' "$(completed 'bhtf get finish C')"
same "bash: names behind options" 'RP-3' "$(completed 'bhtf delete finish -q R')"
same "bash: names to withdraw a text from" 'RP-3' "$(completed 'bhtf withdraw finish R')"
none "bash: no names for a file of records" "$(completed 'bhtf delete finish --delta R')"
same "bash: names behind one" 'RP-3' "$(completed 'bhtf delete --delta changes finish R')"
same "bash: versions" $'1.0.0\n1.0.1\n1.0.2' "$(completed 'bhtf create new --format 1')"
same "bash: the other version" 2.0.0 "$(completed 'bhtf create new --format 2')"
same "bash: columns" 'PENZD' "$(completed 'bhtf import finish x.csv --columns PE')"
same "bash: delimiters" 'semicolon' "$(completed 'bhtf import finish x.csv -d s')"
same "bash: names behind an option's value" 'RP-3' "$(completed 'bhtf get --wait 5 finish R')"
same "bash: and behind a letter's" 'RP-3' "$(completed 'bhtf set -H 489.3 finish R')"
same "bash: patterns begin as names do" 'RP-3' "$(completed 'bhtf list finish --by name R')"
same "bash: encodings" 'windows-1252' "$(completed 'bhtf import finish x.csv --encoding w')"
none "bash: a file that is not there" "$(completed 'bhtf get nowhere C')"

# zsh's own completion, on a terminal of its own.
holds "zsh is there" "$root/.ci/install" zsh
cat >complete.zsh <<'ZSH'
zmodload zsh/zpty
zpty z zsh -f -i
zpty -w z 'unset zle_bracketed_paste; PS1=; fpath=('$1' $fpath); autoload -Uz compinit; compinit -D -u; print ready$((6 * 7))'
zpty -r -m z out '*ready42*'
sleep 0.5
zpty -w -n z "$2"$'\t'
sleep 1
zpty -w -n z $'\C-a\C-kprint done$((6 * 7))\n'
zpty -r -m z out '*done42*'
print -r -- "$out"
zpty -d z
ZSH
zsh_completes() { # LINE PATTERN: on a busy machine it may take more than one try
  local i
  for i in 1 2 3; do
    timeout 60 zsh -f complete.zsh "$work/usr/share/zsh/site-functions" "$1" | tr -d '\r' | cat -v >completed
    grep -q -- "$2" completed && return 0
  done
  cat completed
  return 1
}
holds "zsh: a command" zsh_completes 'bhtf exp' 'bhtf export'
holds "zsh: an option" zsh_completes 'bhtf import finish --dry' 'import finish --dry-run'
holds "zsh: a name of a point" zsh_completes 'bhtf get finish R' 'get finish RP-3'
holds "zsh: a name behind an option's value" zsh_completes 'bhtf get --wait 5 finish R' 'finish RP-3'
holds "zsh: columns" zsh_completes 'bhtf import finish x --columns PE' 'columns PENZD'
