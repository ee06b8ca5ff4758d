# shellcheck shell=bash disable=SC2154,SC2034
# `usbplan test`, a command of the script only. It compares what commands write of the plans of folders with the texts
# beside them, and runs the files of rows. The caller sources serving.sh and rows.sh, and sets `test_help`, the file with
# the help of `test`.

# The lines of a difference that are shown.
most_lines=10

# The commands whose text may be beside a plan, in the order of the tests.
text_commands=(tree run draw check page explain)

# Reports what is wrong with the words of `test`, and ends.
refuse_test() {
  printf 'error: %s\n\n' "$1" >&2
  grep -m 1 '^Usage: ' "$test_help" >&2
  printf "\nFor more information, try '--help'.\n" >&2
  exit 2
}

# Sets `shown`: a name as it is, or quoted if it has bytes that a terminal obeys.
show_name() {
  shown=$1
  [[ "$1" != *[[:cntrl:]]* ]] || printf -v shown '%q' "$1"
}

# Says what is wrong with a file or folder, and ends.
refuse_name() {
  local shown
  show_name "$1"
  refuse "$shown" "$2"
}

# Ends if a folder cannot be read.
see_folder() {
  [ -e "$1" ] || refuse_name "$1" "is not there"
  [ -d "$1" ] || refuse_name "$1" "is not a folder"
  [ -r "$1" ] || refuse_name "$1" "cannot be read"
  [ -x "$1" ] || refuse_name "$1" "cannot be read"
}

# Sets `folders` and `accept`, the words of `test`. Ends if they request help, if they are wrong, or if a folder cannot
# be read. The words of another command are left alone.
read_test() {
  local folder
  folders=() accept=''
  [ "$#:${1-}:${2-}" != 2:help:test ] || set -- test --help
  [ "${1-}" = test ] || return 0
  shift
  while [ $# -gt 0 ]; do
    case "$1" in
      -h | --help)
        cat "$test_help" || exit 4
        exit 2
        ;;
      --accept)
        [ -z "$accept" ] || refuse_test "the argument '--accept' cannot be used multiple times"
        accept=1
        ;;
      -?*) refuse_test "unexpected argument '$1' found" ;;
      *) folders+=("$1") ;;
    esac
    shift
  done
  [ ${#folders[@]} -gt 0 ] || refuse_test $'the following required arguments were not provided:\n  <FOLDER>...'
  for folder in "${folders[@]}"; do
    see_folder "$folder"
  done
}

# Ends if a file of the folder is not a regular one, or cannot be read.
see_regular() {
  [ -f "$1" ] || refuse_name "$folder/$1" "is not a regular file"
  [ -r "$1" ] || refuse_name "$folder/$1" "cannot be read"
}

# Whether there is something of this name, a link to nothing too.
is_there() {
  [ -e "$1" ] || [ -L "$1" ]
}

# Shows the first lines of the difference between two files, under these two names.
show_difference() {
  local more
  diff -a -U 1 -L "$1" -L "$2" "$3" "$4" | cat -v >"$room/difference" || true
  # two lines name the files
  more=$(($(wc -l <"$room/difference") - 2 - most_lines))
  head -n $((2 + most_lines)) "$room/difference"
  [ "$more" -le 0 ] || echo "... $more more lines"
}

# Puts the file `new` of the room in the place of a file, which is never half written. A link keeps its place.
put_file() {
  local file=$1 new
  [ ! -L "$file" ] || file=$(readlink -f -- "$file")
  new=$file.$$.new
  if { [ ! -e "$file" ] || cp -p -- "$file" "$new"; } 2>/dev/null && { cat "$room/new" >"$new"; } 2>/dev/null &&
    mv -f -- "$new" "$file" 2>/dev/null; then
    return
  fi
  rm -f -- "$new"
  refuse_name "$folder/$1" "cannot be written"
}

# Counts a failure, and says why in a line.
fail() {
  local shown
  failed=$((failed + 1))
  show_name "$folder/$1"
  echo "$shown: $2"
}

# Sets `wanted_code` and `wanted_fault`, what a command is to report of a plan: what NAME.status says of those that run
# the plan. `check` writes a fault itself, and `explain` reads a text, which has none.
want_fault() {
  local status=${2%.toml}.status lines=()
  wanted_code=0 wanted_fault=''
  [ "$1" != explain ] && is_there "$status" || return 0
  see_regular "$status"
  mapfile -t lines <"$status"
  [[ "${lines[0]-}" =~ ^(0|[1-9][0-9]{0,2})$ ]] || refuse_name "$folder/$status" "does not begin with an exit status"
  wanted_code=${lines[0]}
  if [ "$1" != check ]; then
    printf -v wanted_fault '%s\n' "${lines[@]:1}"
    [ ${#lines[@]} -gt 1 ] || wanted_fault=''
  elif [ "$wanted_code" != 1 ]; then
    wanted_code=0
  fi
}

# Runs a command, and sets `code`. False if it reports another fault than is wanted.
is_wanted_end() {
  local fault
  code=0
  [ -z "$better" ] || prefer_better
  "$program" "$1" "$2" </dev/null >"$room/text" 2>"$room/fault" || code=$?
  IFS= read -r -d '' fault <"$room/fault" || true
  [ "$code" = "$wanted_code" ] && [ "$fault" = "$wanted_fault" ]
}

# Says which fault a command reported, and which one is wanted if there is one.
tell_end() {
  local line wanted=
  line=$(head -n 1 "$room/fault" | cat -v)
  [ "$wanted_code:$wanted_fault" = 0: ] || wanted=", not $wanted_code: ${wanted_fault%%$'\n'*}"
  echo "$2: $1 ended with status $code: $line$wanted"
}

# Shows why a text fails: the fault, and the difference, except for a faulty run that wrote nothing.
show_failure() {
  local command=$1 source=$2 text=$3 shown source_name
  failed=$((failed + 1))
  show_name "$folder/$source"
  source_name=$shown
  show_name "$folder/$text"
  [ -n "$is_wanted" ] || tell_end "$command" "$source_name"
  if [ -e "$text" ] && { [ -n "$is_wanted" ] || [ -s "$room/text" ]; } && ! cmp -s "$text" "$room/text"; then
    show_difference "$shown" "usbplan $command $source_name" "$text" "$room/text"
  fi
}

# Writes a text anew.
accept_text() {
  local shown
  mv "$room/text" "$room/new"
  put_file "$1"
  accepted=$((accepted + 1))
  show_name "$folder/$1"
  echo "accepted $shown"
}

# Compares what a command writes of a plan with its text.
test_text() {
  local command=$1 plan=$2 text=${2%.toml}.$1.txt source=$2 code wanted_code wanted_fault is_wanted=''
  [ "$command" != explain ] || source=${plan%.toml}.run.txt
  ! is_there "$text" || see_regular "$text"
  want_fault "$command" "$plan"
  ! is_wanted_end "$command" "$source" || is_wanted=1
  if [ -n "$is_wanted" ] && cmp -s "$room/text" "$text"; then
    passed=$((passed + 1))
  elif [ -n "$is_wanted" ] && [ -n "$accept" ]; then
    accept_text "$text"
  else
    show_failure "$command" "$source" "$text"
  fi
}

# Tests a plan with each of its texts. One without a text is counted, or gets its text if texts are accepted.
test_plan() {
  local plan=$1 command count=0
  see_regular "$plan"
  for command in "${text_commands[@]}"; do
    if is_there "${plan%.toml}.$command.txt"; then
      count=$((count + 1))
      test_text "$command" "$plan"
    fi
  done
  if [ "$count" = 0 ] && [ -n "$accept" ]; then
    test_text tree "$plan"
  elif [ "$count" = 0 ]; then
    bare=$((bare + 1))
  fi
}

# Fails a text, or a status, whose plan is gone.
test_owner() {
  local file=$1 plan=${1%.*} part=${1%.txt}
  if [[ "$file" == *.txt ]]; then
    [[ " ${text_commands[*]} " == *" ${part##*.} "* && "$part" == *.* ]] || return 0
    plan=${part%.*}
  fi
  is_there "$plan.toml" || fail "$file" "there is no plan $plan.toml beside it"
}

# Tests the plans and the rows of the folder, in the order of their names.
test_folder() {
  local folder=${1%/} file before=$((passed + failed + accepted)) shown
  [ -n "$folder" ] || folder=/.
  cd -- "$1" || exit 4
  for file in *; do
    [[ "$file" != -* ]] || file=./$file
    case "$file" in
      *.toml) test_plan "$file" ;;
      *.rows) test_rows "$file" ;;
      *.txt | *.status) test_owner "$file" ;;
    esac
  done
  cd -- "$top" || exit 4
  [ "$before" = $((passed + failed + accepted)) ] || return 0
  show_name "$1"
  echo "usbplan: '$shown' has nothing to test: no NAME.rows, and no plan NAME.toml with a text as NAME.tree.txt" >&2
  empty=1
}

# Sets `program`: a copy of a build, whose place another one may take while the tests run.
take_program() {
  program=$1
  [[ "$program" == /* ]] || program=$top/$program
  if cp -- "$program" "$room/usbplan.new" 2>/dev/null && [ -x "$room/usbplan.new" ]; then
    mv -f "$room/usbplan.new" "$room/usbplan"
    program=$room/usbplan
  fi
}

# Goes on with the better build, as soon as it is there.
prefer_better() {
  if [ -x "$better" ]; then
    take_program "$better"
    better=
  fi
}

# Tests the folders with a build, and with a better one as soon as it is there, and ends. Status 1: a text or row failed,
# or a folder has nothing to test.
run_tests() {
  local program better=${2-} top=$PWD folder sum empty='' passed=0 failed=0 accepted=0 bare=0
  local -x LC_ALL=C CDPATH=
  room=$(mktemp -d) || exit 4
  trap 'rm -rf "$room"' EXIT
  take_program "$1"
  for folder in "${folders[@]}"; do
    test_folder "$folder"
  done
  sum="$passed passed, $failed failed"
  [ "$accepted" = 0 ] || sum+=", $accepted accepted"
  [ "$bare" = 0 ] || sum+=", $bare without a text"
  if [ $((passed + failed + accepted)) != 0 ]; then
    echo "$sum" 2>/dev/null || {
      echo "write failed" >&2
      exit 4
    }
  fi
  [ "$failed$empty" = 0 ] || exit 1
  exit 0
}
