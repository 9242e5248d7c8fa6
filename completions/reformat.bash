# Completion of bash for reformat: its commands, and the dialects of translate.
_reformat() {
  local word=${COMP_WORDS[COMP_CWORD]}
  COMPREPLY=()
  case $COMP_CWORD in
    1) mapfile -t COMPREPLY < <(compgen -W 'rewrite plan scan translate sample' -- "$word") ;;
    2)
      if [ "${COMP_WORDS[1]}" = translate ]; then
        mapfile -t COMPREPLY < <(compgen -W 'strfmt formatx' -- "$word")
      fi
      ;;
  esac
}
complete -F _reformat reformat
