# Completion of the words of wgcc in bash.
_wgcc() {
  local word=${COMP_WORDS[COMP_CWORD]} command=${COMP_WORDS[1]} options=
  if [ "$COMP_CWORD" -eq 1 ]; then
    mapfile -t COMPREPLY < <(compgen -W 'run plan code build exec sample' -- "$word")
    return
  fi
  case $command in
    run) options='--lanes --turns --cache' ;;
    code | build) options=--lanes ;;
    exec) options=--turns ;;
    sample) return ;;
  esac
  if [[ $word == -* ]]; then
    mapfile -t COMPREPLY < <(compgen -W "$options" -- "$word")
  elif [ "${COMP_WORDS[COMP_CWORD - 1]}" = --lanes ]; then
    mapfile -t COMPREPLY < <(compgen -W '1 4 8 16' -- "$word")
  else
    mapfile -t COMPREPLY < <(compgen -f -- "$word")
  fi
}
complete -o filenames -F _wgcc wgcc
