# Completion of navbridge's arguments in bash. The program has no help of its own: after the formats that are given this offers the
# options of their conversion, and values for each.
# shellcheck shell=bash

# the table of conversions: from, to, options
_navbridge_conversions() {
  cat << 'END'
capture rinex week date leap
capture rinex3 week date leap
capture rtcm week
capture list week
capture count week
stream frames
stream rinex week date leap
stream rinex3 week date leap
stream rtcm week
rinex rinex date leap
rinex rinex3 date leap
rinex rtcm
rinex list
rinex merged date leap
rinex cover
rinex capture week
rinex3 rinex date leap
rinex3 rinex3 date leap
rinex3 rtcm
rinex3 list
rinex3 capture week
seed capture seed sats week
seed count seed sats week
END
}

_navbridge() {
  local current=${COMP_WORDS[COMP_CWORD]} name='' word from='' to='' given=' ' place words=() line fields
  # "--name=value" comes as three words, since = divides words here
  for ((place = 1; place < COMP_CWORD; place++)); do
    word=${COMP_WORDS[place]}
    case $word in
      =) ;;
      --*=*)
        name=
        given+="${word%%=*} "
        [[ $word != --from=* ]] || from=${word#*=}
        [[ $word != --to=* ]] || to=${word#*=}
        ;;
      --*)
        name=$word
        given+="$word "
        ;;
      *)
        [ "$name" != --from ] || from=$word
        [ "$name" != --to ] || to=$word
        name=
        ;;
    esac
  done
  [ "$current" != = ] || current=
  COMPREPLY=()
  case $name in
    --from) mapfile -t words < <(_navbridge_conversions | while read -r line _; do echo "$line"; done | sort -u) ;;
    --to) mapfile -t words < <(_navbridge_conversions | while read -r -a fields; do [ -n "$from" ] && [ "${fields[0]}" != "$from" ] || echo "${fields[1]}"; done | sort -u) ;;
    # the current week
    --week) words=($((($(date +%s) - 315964800) / 604800))) ;;
    --date) words=("$(date -u '+%Y%m%d %H%M%S UTC')") ;;
    --leap) words=(18) ;;
    --seed) words=(1 7) ;;
    --sats) words=(1 12 32) ;;
    *)
      # the options of the conversions that are still possible
      mapfile -t words < <(
        _navbridge_conversions | while read -r -a fields; do
          [ -n "$from" ] && [ "${fields[0]}" != "$from" ] && continue
          [ -n "$to" ] && [ "${fields[1]}" != "$to" ] && continue
          printf -- '--%s\n' from to
          [ -z "$from" ] || [ -z "$to" ] || [ ${#fields[@]} -lt 3 ] || printf -- '--%s\n' "${fields[@]:2}"
        done | sort -u | while read -r word; do [[ $given == *" $word "* ]] || echo "$word"; done
      )
      ;;
  esac
  for word in "${words[@]}"; do
    [[ $word == "${current//[\"\']/}"* ]] || continue
    # a value with blanks is one argument
    [[ $word != *' '* ]] || word="'$word'"
    COMPREPLY+=("$word")
  done
}
complete -F _navbridge navbridge
