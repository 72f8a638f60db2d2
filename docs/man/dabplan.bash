# The completion of dabplan for bash, made by release/manual. A file is one word, whatever is in its name.
_dabplan_words() {
  mapfile -t COMPREPLY < <(compgen -W "$1" -- "${COMP_WORDS[COMP_CWORD]}")
}
_dabplan() {
  local word=${COMP_WORDS[COMP_CWORD]} before=${COMP_WORDS[COMP_CWORD-1]} options=
  if [ "$COMP_CWORD" -eq 1 ]; then
    _dabplan_words "frame listen check merge diff compile verify map timeline play debug live help --help --version"
    return
  fi
  case $before in
    --mode) _dabplan_words "1 2 3 4"; return ;;
    --budget|--contacts|--count|--day|--ensemble|--every|--from|--notice|--page|--period|--reserve|--skip|--time) return ;;
  esac
  case ${COMP_WORDS[1]} in
    frame) options="--ensemble --count --page --mode --reserve --script --raw --quiet --help" ;;
    listen) options="--json --script --mode --period --notice --budget --reserve --next --help" ;;
    check) options="--mode --period --every --time --until-fault --json --help" ;;
    merge) options="--mode --help" ;;
    diff) options="--quiet --help" ;;
    compile) options="--from --explain --quiet --help" ;;
    verify) options="--explain --quiet --help" ;;
    map) options="--svg --layout --json --quiet --help" ;;
    timeline) options="--count --day --time --contacts --svg --json --quiet --help" ;;
    play) options="--count --day --time --contacts --help" ;;
    debug) options="--count --day --time --contacts --help" ;;
    live) options="--count --day --time --contacts --skip --status --every --json --help" ;;
    help) _dabplan_words "frame listen check merge diff compile verify map timeline play debug live"; return ;;
  esac
  if [[ $word == -* ]]; then
    _dabplan_words "$options"
  else
    compopt -o filenames 2>/dev/null
    mapfile -t COMPREPLY < <(compgen -f -- "$word")
  fi
}
complete -F _dabplan dabplan
