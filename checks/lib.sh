# shellcheck shell=bash
# What the scripts of checks/ and bench/ share; they source it. It knows the top of the checkout (`top`).

top=$(dirname "$(dirname "$(readlink -f "${BASH_SOURCE[0]}")")")
me=$(basename "$0" .sh)
start=$PWD
tried=0 wrong=0

# Why the script ends, and its status 2
fail() {
  echo "$me: $*" >&2
  exit 2
}

# Why the check is not done on this machine: its last line, and status 0
skip() {
  echo "skipped: $*"
  exit 0
}

# A path of the command line, as a whole one, wherever the script has gone
path_of() { (cd "$start" && readlink -m -- "$1"); }

# The comment at the head of the script
help() { sed -n '2,/^[^#]/{/^[^#]/d;s/^# \{0,1\}//;p}' "$0"; }

# Reads options: `options '--program: --check --word+: ..' "$@"`. A colon: the option takes a value, which the variable of its name
# gets (`program`; of --long-name `long_name`), and yes without one. A plus: it may come again, and the variable is an array.
# `..`: arguments may stand beside options; they go into the array `arguments`, and are a mistake without it.
options() {
  local known=" $1 " option name
  shift
  arguments=()
  while [ $# -gt 0 ]; do
    case $1 in --*=*) set -- "${1%%=*}" "${1#*=}" "${@:2}" ;; esac
    option=$1
    name=${option#--}
    name=${name//-/_}
    case $option in
      -h | --help)
        help
        exit 0
        ;;
      -?*)
        case $known in
          *" $option: "* | *" $option+: "*) [ $# -ge 2 ] || fail "$option needs a value" ;;
          *" $option "*) ;;
          *) fail "$option is no option; --help" ;;
        esac
        case $known in
          *" $option: "*) printf -v "$name" %s "$2" && shift ;;
          *" $option+: "*) eval "$name+=(\"\$2\")" && shift ;;
          *) printf -v "$name" yes ;;
        esac
        ;;
      *)
        case $known in *' .. '*) ;; *) fail "$option is no option; --help" ;; esac
        arguments+=("$option")
        ;;
    esac
    shift
  done
}

# A built program into a variable: `built program navbridge`. It is the file that the variable has (of an option), or that of the
# environment (PROGRAM), or crates/navbridge/out/navbridge, or without a repository, as in the package, that of the path. Where it
# is not there: status 2; of `is_built` 1.
is_built() {
  local variable=$1 of_environment=${1^^} file
  file=${!variable:-${!of_environment:-}}
  [ -n "$file" ] || [ -d "$top/crates" ] || file=$(command -v "$2") || true
  printf -v "$variable" %s "$(path_of "${file:-$top/crates/$2/out/$2}")"
  [ -f "${!variable}" ] && [ -x "${!variable}" ]
}
built() {
  is_built "$@" ||
    fail "build first: no program ${!1}; 'rt ci' at the top, or 'rt run' in crates/$2, leaves it there, or --$1 names one"
}

# A folder that goes when the script ends, into the variable `work`
work_folder() {
  work=$(mktemp -d) || fail "no directory for temporary files"
  trap 'chmod -R u+w "$work"; rm -rf "$work"' EXIT
}

# A try that went wrong: what was tried, and why it is wrong
differs() {
  wrong=$((wrong + 1))
  echo "differs: $*"
}

# The last line of a check (what was tried), and its status
ended() {
  echo "$1: $tried tried, $wrong differ"
  [ "$wrong" = 0 ]
}
