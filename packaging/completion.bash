# Made by scripts/pages of the repository, from the definitions of the commands: do not edit it here.
# Completion of shuntberry and check in bash. It runs nothing: what was typed may be any program.
_shuntberry() {
  local word=$2 before=$3 command=${COMP_WORDS[1]} words=
  local commands='check check-all release report inspect diff within replay options next-open encode decode picture generate rewrite'
  [ "${1##*/}" != check ] || command=check
  COMPREPLY=()
  if [ "${1##*/}" != check ] && [ "$COMP_CWORD" -eq 1 ]; then
    words="$commands help --help --version"
  elif [ "$COMP_CWORD" -eq 2 ] && [ "$command" = help ]; then
    words=$commands
  elif [[ $word == -* ]]; then
    case $command in
    check) words='--site --explain --quiet --json --allowance --text --names --' ;;
    check-all) words='--site --from -0 --count --quiet --json --' ;;
    release) words='--site --even-if-vacuous --' ;;
    report) words='-o --site --names --title --released --since --old-names --' ;;
    inspect) words='--site --text --names --json --' ;;
    diff) words='--site --text --old-names --names --json --' ;;
    within) words='--site --text --names --json --' ;;
    replay) words='--site --text --names --text-log --json --' ;;
    options) words='--possible --site --text --names --json --' ;;
    next-open) words='--at --json --' ;;
    encode) words='--site -o --' ;;
    decode) words='--site -o --text --names --' ;;
    picture) words='--site -o --svg --distances --groups --all --text --names --' ;;
    generate) words='--site -o --' ;;
    rewrite) words='-o --' ;;
    esac
  else
    case $before in
    --allowance | --at | --count | --site | --title) return ;;
    esac
    compopt -o filenames
    mapfile -t COMPREPLY < <(compgen -f -- "$word")
    return
  fi
  mapfile -t COMPREPLY < <(compgen -W "$words" -- "$word")
}
complete -F _shuntberry shuntberry check
