# shellcheck shell=bash disable=SC2154,SC2034,SC2059
# The rows of `usbplan test`: files NAME.rows of command lines, each with its input, its output and its status. The page
# docs/output/test.md has their form. The caller sources testing.sh.
#
# The text of a stream is kept with escapes as `printf %b` reads them, so it may have any byte.

# Reports what is wrong with a line of a rows file, and ends.
refuse_row() {
  local shown
  show_name "$folder/$rows"
  echo "usbplan: $shown:$((number + 1)): $1" >&2
  exit 4
}

# Sets `words`: those of a command line, split at blanks. Quotes keep blanks, and nothing is expanded.
split_words() {
  local rest=$1 word part
  words=()
  while rest=${rest#"${rest%%[! ]*}"} && [ -n "$rest" ]; do
    word=
    while [ -n "$rest" ] && [[ "$rest" != ' '* ]]; do
      case "$rest" in
        \'*\'* | \"*\"*)
          part=${rest:1}
          part=${part%%"${rest:0:1}"*}
          rest=${rest:$((${#part} + 2))}
          ;;
        [\'\"]*) refuse_row "a quote that does not end" ;;
        *)
          part=${rest%%[ \'\"]*}
          rest=${rest:${#part}}
          ;;
      esac
      word+=$part
    done
    words+=("$word")
  done
}

# Sets `escaped`: what a file holds.
read_escaped() {
  local part
  escaped=
  while IFS= read -r -d '' part; do
    escaped+=${part//\\/\\\\}'\x00'
  done <"$1"
  escaped+=${part//\\/\\\\}
}

# Sets `escaped`: a text this many times.
repeat() {
  local count=$1 text=$2
  escaped=
  while [ "$count" -gt 0 ]; do
    [ $((count % 2)) = 0 ] || escaped+=$text
    text+=$text count=$((count / 2))
  done
}

# Sets `escaped`: a text this many times, with the number in place of `{n}`.
repeat_numbered() {
  local count=$1 text=$2 form numbers=() i
  form=${text//\\/\\\\}
  form=${form//%/%%}
  if [[ "$text" != *'{n}'*'{n}'* ]]; then
    mapfile -t numbers < <(seq "$count")
    printf -v escaped "${form/'{n}'/%d}" "${numbers[@]}"
    return
  fi
  escaped=
  for ((i = 1; i <= count; i++)); do
    escaped+=${text//'{n}'/$i}
  done
}

# The forms of a line after its sign: a text a number of times, and the escapes of a text.
times_form='^\*([1-9][0-9]{0,6})? (.*)$' escapes_form='^([^\\]|\\[ntr\\]|\\x[0-9A-Fa-f]{2})*$'

# Sets `escaped`: what a line adds to its stream.
read_line() {
  local rest=${1:1} count shown
  if [[ "$rest" == " "* ]]; then
    rest=${rest:1}
    escaped=${rest//\\/\\\\}'\n'
  elif [ -z "$rest" ]; then
    escaped='\n'
  elif [[ "$1" == "${1:0:1}${1:0:1} "* ]]; then
    show_name "${rest:2}"
    [[ -f "${rest:2}" && -r "${rest:2}" ]] || refuse_row "the file '$shown' cannot be read"
    read_escaped "${rest:2}"
  elif [[ "$rest" =~ $times_form ]]; then
    count=${BASH_REMATCH[1]} escaped=${BASH_REMATCH[2]}
    [[ "$escaped" =~ $escapes_form ]] || refuse_row "an escape that is none of \\n, \\t, \\r, \\\\ and \\x with two digits"
    case "$count:$escaped" in
      :*) ;;
      *'{n}'*) repeat_numbered "$count" "$escaped" ;;
      *) repeat "$count" "$escaped" ;;
    esac
  else
    refuse_row "a sign that is not followed by a blank"
  fi
}

# Begins a row with its command line.
begin_row() {
  [[ "$1" == "$ "* ]] || refuse_row "a sign that is not followed by a blank"
  split_words "${1:2}"
  [ "${words[0]-}" = usbplan ] || refuse_row "a command that is not usbplan"
  begun=$number input='' plan='' output='' errors='' status=''
}

# Sets the row's status.
add_status() {
  [ -n "$begun" ] || refuse_row "a line before the first command"
  [ -z "$status" ] || refuse_row "a second status"
  [[ "$1" =~ ^=\ (0|[1-9][0-9]{0,2})$ ]] || refuse_row "not a status"
  status=${1:2}
}

# Adds a line to its stream of the row.
add_line() {
  local escaped
  [ -n "$begun" ] || refuse_row "a line before the first command"
  read_line "$1"
  case "$1" in
    '<'*) input+=$escaped ;;
    '@'*) plan+=$escaped ;;
    '>'*) output+=$escaped ;;
    '!'*) errors+=$escaped ;;
  esac
}

# Runs the row's command, and sets `code`.
run_row() {
  local i named=''
  for i in "${!words[@]}"; do
    [ "${words[i]}" = @ ] || continue
    words[i]=/dev/fd/3 named=1
  done
  [ "${named:+x}" = "${plan:+x}" ] || number=$begun refuse_row "either lines with @ or a word @, and not both"
  code=0
  [ -z "$better" ] || prefer_better
  printf %b "$input" >"$room/in"
  if [ -z "$named" ]; then
    "$program" "${words[@]:1}" <"$room/in" >"$room/out" 2>"$room/err" || code=$?
    return
  fi
  printf %b "$plan" >"$room/plan"
  "$program" "${words[@]:1}" <"$room/in" >"$room/out" 2>"$room/err" 3<"$room/plan" || code=$?
}

# Whether a file holds the bytes that a text with escapes stands for.
is_same() {
  local got wanted
  if [[ "$1" == *'\x'* ]] || IFS= read -r -d '' got <"$2"; then
    printf %b "$1" | cmp -s - "$2"
  else
    printf -v wanted %b "$1"
    [ "$got" = "$wanted" ]
  fi
}

# Adds to `told` what a file holds, as lines with this sign.
put_stream() {
  local escaped sign=$1 parts=() last i line
  read_escaped "$2"
  printf %s "$escaped" >"$room/escaped"
  mapfile -t parts <"$room/escaped"
  [ "${escaped%$'\n'}" = "$escaped" ] && last=${#parts[@]} || last=-1
  for i in "${!parts[@]}"; do
    line=${parts[i]}
    if [ $((i + 1)) = "$last" ]; then
      told+=("$sign* $line")
    elif [[ "$line" == *'\x'* ]]; then
      told+=("$sign* $line\\n")
    else
      told+=("$sign${line:+ }${line//'\\'/\\}")
    fi
  done
}

# Sets `told`: the lines that a row with these streams and this status has.
put_outcome() {
  told=()
  put_stream '>' "$1"
  put_stream '!' "$2"
  [ "$3" = 0 ] || told+=("= $3")
}

# Shows how a row differs from what it says.
show_row() {
  local told shown
  failed=$((failed + 1))
  printf %b "$output" >"$room/wanted_out"
  printf %b "$errors" >"$room/wanted_err"
  put_outcome "$room/wanted_out" "$room/wanted_err" "${status:-0}"
  printf '%s' "${told[@]/%/$'\n'}" >"$room/wanted"
  put_outcome "$room/out" "$room/err" "$code"
  printf '%s' "${told[@]/%/$'\n'}" >"$room/got"
  show_name "$folder/$rows"
  show_difference "$shown:$((begun + 1))" "${lines[begun]:2}" "$room/wanted" "$room/got"
}

# Writes a row anew: its lines of output, and its status, are those of the outcome. Comments stay.
accept_row() {
  local told i first='' last=0 stay=() shown
  put_outcome "$room/out" "$room/err" "$code"
  for ((i = begun; i < number; i++)); do
    case "${lines[i]}" in
      ['>!=']*) : "${first:=${#stay[@]}}" ;;
      ['$<@']*) stay+=("${lines[i]}") last=${#stay[@]} ;;
      *) stay+=("${lines[i]}") ;;
    esac
  done
  : "${first:=$last}"
  written+=("${stay[@]:0:first}" "${told[@]}" "${stay[@]:first}")
  accepted=$((accepted + 1)) changed=1
  show_name "$folder/$rows"
  echo "accepted $shown:$((begun + 1))"
}

# Tests the row that the line at `number` ends, if one has begun.
end_row() {
  local code
  if [ -z "$begun" ]; then
    written=("${lines[@]:0:number}")
    return
  fi
  run_row
  if [ "$code" = "${status:-0}" ] && is_same "$output" "$room/out" && is_same "$errors" "$room/err"; then
    passed=$((passed + 1))
  elif [ -n "$accept" ] && [ "$code" -lt 126 ]; then
    accept_row
    return
  else
    show_row
  fi
  [ -z "$accept" ] || written+=("${lines[@]:begun:number-begun}")
}

# Tests the rows of a file.
test_rows() {
  local rows=$1 text number begun='' changed='' lines=() written=() words input plan output errors status
  see_regular "$rows"
  if IFS= read -r -d '' text <"$rows"; then
    text=${text//[!$'\n']/}
    number=${#text} refuse_row "a byte 0"
  fi
  mapfile -t lines <"$rows"
  for number in "${!lines[@]}"; do
    case "${lines[number]}" in
      '' | '#'*) ;;
      ['<@>!']*) add_line "${lines[number]}" ;;
      '$'*)
        end_row
        begin_row "${lines[number]}"
        ;;
      '='*) add_status "${lines[number]}" ;;
      *) refuse_row "a sign that is none of # \$ < @ > ! =" ;;
    esac
  done
  number=${#lines[@]}
  end_row
  [ -n "$changed" ] || return 0
  printf '%s\n' "${written[@]}" >"$room/new"
  put_file "$rows"
}
