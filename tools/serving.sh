# shellcheck shell=bash
# What `usbplan` does around the program, in a checkout and where it is installed: it names a file that cannot be read,
# keeps the bytes of `pcap` off a terminal, and says what a person may want to know besides.

# What is wrong with the file, in one line.
refuse() {
  echo "usbplan: '$1' $2" >&2
  exit 4
}

# Keeps the bytes of `pcap` off a terminal.
refuse_terminal() {
  if [ "$#:${1-}" = 2:pcap ] && [ -t 1 ] && [[ "$2" != -?* ]]; then
    echo "usbplan: pcap writes bytes, and no text: send them to a file" >&2
    exit 4
  fi
}

# Sets `words`: those behind the command, apart from its option with a value. None if there is another option.
set_words() {
  local option=$1
  words=()
  shift 2
  while [ $# -gt 0 ]; do
    case "$1" in
      "$option") shift ;;
      "$option"=*) ;;
      --)
        shift
        words+=("$@")
        return
        ;;
      -?*)
        words=()
        return
        ;;
      *) words+=("$1") ;;
    esac
    shift || break
  done
}

# Ends if the file of a command cannot be read.
see_file() {
  [[ "$2" != -* ]] || return 0
  if [ -d "$2" ]; then
    [ "$1" = device ] || refuse "$2" "is a folder"
    [ -e "$2/descriptors" ] || refuse "$2" "is a folder with no file 'descriptors'"
  fi
  [ -e "$2" ] || refuse "$2" "is not there"
  [ -r "$2" ] || refuse "$2" "cannot be read"
}

# Sets `file`: the one file that the command reads, `-` if it reads none. Ends if a file cannot be read.
name_file() {
  local words=() i
  file=-
  case "$#:${1-}" in
    2:check | 2:tree | 2:draw | 2:run | 2:explain | 2:page | 2:pcap | 2:far) file=$2 ;;
    3:draw) [ "$2" != --ascii ] || file=$3 ;;
    [34]:explain)
      set_words --only "$@"
      [ ${#words[@]} != 1 ] || file=${words[0]}
      ;;
    *:device)
      set_words --ports "$@"
      # a name without a file is refused first
      [ $((${#words[@]} % 2)) = 0 ] || words=()
      for ((i = 1; i < ${#words[@]}; i += 2)); do
        see_file device "${words[i]}"
      done
      ;;
  esac
  see_file "${1-}" "$file"
}

# Says on a terminal what the program waits for: the other side's lines, typed by a person.
tell_wait() {
  [ -t 0 ] && [ -t 2 ] || return 0
  case "$1" in
    live) echo "usbplan: waits for the answer to each line, as 'roots 2' to the first (see live.md)" >&2 ;;
    far) echo "usbplan: waits for the lines of a host, the first is 'usbplan live 1' (see live.md)" >&2 ;;
  esac
}

# Runs the program. If it refuses a plan, one more line says how to see what is wrong with it: on a terminal, and in the
# log of a CI.
serve() {
  local program=$1 code=0
  shift
  tell_wait "${1-}"
  if { [ ! -t 2 ] && [ -z "${CI-}" ]; } || [[ "$file" == -* || ! "${1-}" =~ ^(tree|draw|run|page|far)$ ]]; then
    exec "$program" "$@"
  fi
  "$program" "$@" || code=$?
  [ "$code" != 1 ] || echo "usbplan: 'usbplan check $file' says what is wrong, and where" >&2
  exit "$code"
}
