# Completion of hlo for bash: source this file, or put it into /etc/bash_completion.d.
_hlo() {
  local word=${COMP_WORDS[COMP_CWORD]} before=${COMP_WORDS[COMP_CWORD - 1]} command=${COMP_WORDS[1]}
  COMPREPLY=()
  if [ "$COMP_CWORD" -eq 1 ]; then
    mapfile -t COMPREPLY < <(compgen -W "check opt run train runil --help --version" -- "$word")
    return
  fi
  case $command in
    run | train | runil)
      [ "$before" = --turns ] && return
      case $word in -*) mapfile -t COMPREPLY < <(compgen -W "--turns" -- "$word"); return ;; esac ;;
    opt)
      case $before in --limit | --budget | --passes) return ;; esac
      if [ "$before" = --profile ]; then
        mapfile -t COMPREPLY < <(compgen -f -- "$word")
        return
      fi
      case $word in -*) mapfile -t COMPREPLY < <(compgen -W "--limit --budget --passes --profile --stats" -- "$word"); return ;; esac ;;
    check) ;;
    *) return ;;
  esac
  local end=c
  [ "$command" = runil ] && end=il
  mapfile -t COMPREPLY < <(compgen -f -X "!*.$end" -- "$word"; compgen -d -- "$word")
}
complete -o filenames -F _hlo hlo
