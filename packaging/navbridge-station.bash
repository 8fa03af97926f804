# Completion of navbridge-station's arguments in bash
# shellcheck shell=bash

_navbridge_station() {
  local current=${COMP_WORDS[COMP_CWORD]} before=${COMP_WORDS[COMP_CWORD - 1]} words=()
  COMPREPLY=()
  case $before in
    --form) words=(rtcm3 sbf ubx) ;;
    --letter) words=(R S U) ;;
    --span) words=(3600 86400) ;;
    --source) words=(ntrip:// ntrip2:// ntrip2s:// serial:// tcpcli://) ;;
    --lap | --silent | --leap | --station) return ;;
    --folder | --status) mapfile -t COMPREPLY < <(compgen -d -- "$current") && return ;;
    --program | --navlog | --str2str) mapfile -t COMPREPLY < <(compgen -fc -- "$current") && return ;;
    *)
      if [ "$COMP_CWORD" = 1 ]; then
        words=(files record run --help --version)
      else
        words=(--source --station --folder --form --span --lap --silent --leap --letter --status --program --navlog --str2str)
        [ "${COMP_WORDS[1]}" != files ] || words=(--all "${words[@]:1}")
      fi
      ;;
  esac
  mapfile -t COMPREPLY < <(compgen -W "${words[*]}" -- "$current")
}
complete -F _navbridge_station navbridge-station
