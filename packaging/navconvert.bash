# Completion of navconvert's arguments in bash
# shellcheck shell=bash

_navconvert() {
  local current=${COMP_WORDS[COMP_CWORD]} before=${COMP_WORDS[COMP_CWORD - 1]}
  # "--to=rinex" comes as three words, since = divides words here
  if [ "$before" = = ]; then
    before=${COMP_WORDS[COMP_CWORD - 2]}
  elif [ "$current" = = ]; then
    current=
  fi
  local words=
  case $before in
    -f | --from) words='auto capture stream rinex rinex3 rinex2 ubx sbf' ;;
    -t | --to) words='rinex rinex3 rtcm list count frames merged merged3 cover capture' ;;
    --week | --leap | --date | --long-name) return ;;
    *)
      case $current in
        -*) words='--from --to --output --week --leap --date --long-name --report --overwrite --quiet --dry-run --check --json --list-forms --diff --help --version' ;;
      esac
      ;;
  esac
  if [ -n "$words" ]; then
    mapfile -t COMPREPLY < <(compgen -W "$words" -- "$current")
  else
    mapfile -t COMPREPLY < <(compgen -f -- "$current")
  fi
}
complete -o filenames -F _navconvert navconvert
