# shellcheck shell=bash disable=SC2154,SC2071
# What `usbplan` answers to words alone while no program is built, or no toolchain is there: help, version and wrong
# words, as the program itself answers them. The texts of help are those of docs/help. The caller sets `here`, the top
# of the checkout.

help=$here/docs/help

# Writes a text of help, and ends as the program does.
tell_help() {
  cat "$help/$1.txt" || exit 4
  exit 2
}

# Tells what is wrong with the words, how they go if a command is given, and ends.
refuse_words() {
  local what=$1 usage=${2-}
  printf 'error: %s\n\n' "$what" >&2
  [ -z "$usage" ] || printf '%s\n\n' "$usage" >&2
  echo "For more information, try '--help'." >&2
  exit 2
}

# The commands that a word may mean, with what leads them in: those whose similarity by Jaro is over 0.7, the nearest last.
similar_commands() {
  WORD=$1 awk '
    function jaro(a, b, _, n, m, reach, i, j, used, kept, count, from, turned) {
      n = length(a); m = length(b)
      reach = int((n > m ? n : m) / 2) - 1
      for (i = 1; i <= n; i++)
        for (j = (i - reach > 1 ? i - reach : 1); j <= m && j <= i + (reach > 0 ? reach : 0); j++)
          if (!(j in used) && substr(a, i, 1) == substr(b, j, 1)) { used[j]; kept[++count] = substr(a, i, 1); break }
      for (j = 1; j <= m; j++)
        if (j in used && kept[++from] != substr(b, j, 1)) turned++
      return count ? (count / n + count / m + (count - int(turned / 2)) / count) / 3 : 0
    }
    { near = jaro(ENVIRON["WORD"], $1); if (near > 0.7) print near, $1 }' < <(commands) | sort -s -n -k 1,1 | cut -d " " -f 2
}

# What is wrong with a word that is no command, and what it may mean.
no_command() {
  local names
  names=$(similar_commands "$1" | sed "s/.*/'&'/" | paste -sd , | sed 's/,/, /g')
  printf "unrecognized subcommand '%s'" "$1"
  case "$names" in
    '') ;;
    *,*) printf '\n\n  tip: some similar subcommands exist: %s' "$names" ;;
    *) printf '\n\n  tip: a similar subcommand exists: %s' "$names" ;;
  esac
}

# How the words of a command go, as its help has it.
usage_of() {
  grep -m 1 '^Usage: ' "$help/$1.txt"
}

# Ends with the help that `help NAME..` asks for.
help_with() {
  [ $# -gt 0 ] || tell_help usbplan
  is_command "$1" || [ "$1" = help ] || refuse_words "unrecognized subcommand '$1'" "$(usage_of usbplan)"
  [ $# = 1 ] || refuse_words "unrecognized subcommand '$2'" "$(usage_of "$1")"
  tell_help "$1"
}

# The commands, a line each, as help has them.
commands() {
  sed -n '/^Commands:/,/^$/s/^  \([a-z]*\)  .*/\1/p' "$help/usbplan.txt"
}

is_command() {
  [[ "$1" =~ ^(packet|check|tree|draw|run|explain|page|pcap|device|far|live)$ ]]
}

# The value of an option, as help names it.
value_name() {
  [ "$1" = --only ] && echo WHAT || echo N
}

# Ends where a text names no selection of `explain`: all, setup, damage, a path, or an address, 0 to 127.
check_selection() {
  local number why="it is a path as path:1.2, an address as address:5, setup, damage or all"
  [[ ! "$1" =~ ^(all|setup|damage)$ ]] || return 0
  [[ ! "$1" =~ ^path:([1-9]|1[0-5])(\.([1-9]|1[0-5])){0,6}$ ]] || return 0
  if [[ "$1" =~ ^address:\+?0*([0-9]{1,3})$ ]]; then
    number=${BASH_REMATCH[1]}
    [ "$number" -gt 127 ] || return 0
  fi
  refuse_words "invalid value '$1' for '--only <WHAT>': $why" "$(usage_of explain)"
}

# Ends where the value of an option is not one: a number of 64 bits, of `--ports` 1 to 7.
check_value() {
  local option=$1 value=$2 number why=
  [ "$option" != --only ] || return 0
  number=$(sed 's/^+//; s/^0*\([0-9]\)/\1/' <<<"$value")
  if [ -z "$value" ]; then
    why="cannot parse integer from empty string"
  elif [[ ! "$number" =~ ^[0-9]+$ ]]; then
    why="invalid digit found in string"
  elif [ ${#number} -gt 20 ] || { [ ${#number} = 20 ] && [[ "$number" > 18446744073709551615 ]]; }; then
    why="number too large to fit in target type"
  elif [ "$option" = --ports ] && [[ ! "$number" =~ ^[1-7]$ ]]; then
    why="$number is not in 1..=7"
  fi
  [ -z "$why" ] || refuse_words "invalid value '$value' for '$option <N>': $why"
}

# Tells that a command has no such option, and ends.
refuse_option() {
  local what="unexpected argument '$2' found"
  [ "$1" = live ] || what+=$'\n\n'"  tip: to pass '$2' as a value, use '-- $2'"
  refuse_words "$what" "$(usage_of "$1")"
}

# Ends where an option is given once more. Keeps in `given` how the option goes.
check_option() {
  local command=$1 option=$2
  [ -z "$given" ] || refuse_words "the argument '$option' cannot be used multiple times" "$(usage_of "$command")"
  given=$option
}

# Ends where the flag of `live` is given once more, or with a value.
check_flag() {
  [ -z "$flagged" ] || refuse_words "the argument '--wide-hubs' cannot be used multiple times" "$(usage_of live)"
  [ "$1" = --wide-hubs ] ||
    refuse_words "unexpected value '${1#*=}' for '--wide-hubs' found; no more were expected" \
      "Usage: usbplan live --wide-hubs"
  flagged=1
}

# Ends where a command's words are more than it has names for.
check_room() {
  local command=$1
  shift
  [ $# -le ${#names[@]} ] || [ "$command" = device ] || {
    shift ${#names[@]}
    refuse_words "unexpected argument '$1' found" "$(usage_of "$command")"
  }
}

# Ends where a command's words lack one.
check_count() {
  local command=$1 missing='' name
  shift
  for name in "${names[@]:$#}"; do
    missing+=$'\n'"  $name"
  done
  [ -z "$missing" ] ||
    refuse_words "the following required arguments were not provided:$missing" \
      "$(usage_of "$command" | sed "s/\[OPTIONS\]/$given/; s/  / /")"
}

# Answers the words of a command where they ask for help or are wrong.
check_command() {
  local command=$1 given='' flagged='' value='' words=() names
  mapfile -t names < <(sed -n 's/^  \(<[A-Z ]*>[.]*\)  .*/\1/p' "$help/$1.txt")
  shift
  while [ $# -gt 0 ]; do
    case "$command:$1" in
      *:--)
        shift
        words+=("$@")
        break
        ;;
      *:-h | *:--help) tell_help "$command" ;;
      draw:--ascii) check_option draw --ascii ;;
      live:--wide-hubs | live:--wide-hubs=*) check_flag "$1" ;;
      # what is wrong with these the program says, once it is built
      far:--judge | far:--judge=* | far:--limit=* | far:--rounds=*) ;;
      far:--limit | far:--rounds) [ $# -lt 2 ] || shift ;;
      device:--ports | live:--limit | explain:--only)
        check_option "$command" "$1 <$(value_name "$1")>"
        [[ $# -gt 1 && ! "$2" =~ ^(-h|--help|--wide-hubs|$1)$ ]] ||
          refuse_words "a value is required for '$given' but none was supplied"
        [[ "$2" != -?* ]] || refuse_option "$command" "$2"
        check_value "$1" "$2"
        value=$2
        shift
        ;;
      device:--ports=* | live:--limit=* | explain:--only=*)
        check_option "$command" "${1%%=*} <$(value_name "${1%%=*}")>"
        check_value "${1%%=*}" "${1#*=}"
        value=${1#*=}
        ;;
      *:-?*) refuse_option "$command" "$1" ;;
      *)
        words+=("$1")
        check_room "$command" "${words[@]}"
        ;;
    esac
    shift
  done
  check_room "$command" "${words[@]}"
  check_count "$command" "${words[@]}"
  [ "$command:${given%% *}" != explain:--only ] || check_selection "$value"
  [ "$command:$((${#words[@]} % 2))" != device:1 ] ||
    refuse_words "'${words[-1]}' has no file: each device has a name and a file" "$(usage_of device)"
}

# Answers words that ask for no work of the program.
answer_words() {
  local version why=
  [ $# -gt 0 ] || return 0
  case "$1" in
    -h | --help) tell_help usbplan ;;
    -V | --version)
      version=$(sed -n 's/^const VERSION: &str = "\(.*\)";/\1/p' "$here/crates/usb_words/src/words.rt")
      if has_builds && ! type -P "$rt" >/dev/null; then
        why="no toolchain at '$rt'"
      fi
      echo "usbplan $version (${why:-not built yet})"
      exit 2
      ;;
    help) shift && help_with "$@" ;;
    test) ;; # read_test has seen to it
    -*) refuse_words "unexpected argument '$1' found" "$(usage_of usbplan)" ;;
    *)
      is_command "$1" || refuse_words "$(no_command "$1")" "$(usage_of usbplan)"
      check_command "$@"
      ;;
  esac
}
