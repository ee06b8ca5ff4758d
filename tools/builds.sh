# shellcheck shell=bash disable=SC2154
# What `usbplan`, `tools/optimise` and `tools/prove` share: names of the executables that are kept, and how one is kept. The caller sets
# `here`, the top of the checkout.
#
# An executable's name has the digest of all that it is made of: the files below crates/, but for what `rt` leaves in
# out/, crates.txt, and the toolchain's version. One that is there under the name of now is of the sources as they stand.
# The digest is kept with the files' sizes and times, and made anew only where these differ. What each call does takes
# few processes: a later call is to answer at once.

kept=$here/.build
crate=$here/crates/usb_main
rt=${RT-}
if [ -z "$rt" ]; then
  rt=/opt/rattle/bin/rt
  ! hash rt 2>/dev/null || rt=${BASH_CMDS[rt]}
fi
room=
rt_id=

# Ends where the program cannot be made.
stop() {
  echo "usbplan: $1" >&2
  exit 5
}

# Sets `toolchain`: the toolchain's version, as `rt version` prints it. It is in a file beside `rt`, which is read sooner.
name_toolchain() {
  local at=$rt
  [ ! -L "$at" ] || at=$(readlink -f "$at")
  if [[ "$at" == */* ]] && [ -r "${at%/*}/../KIT-ID" ]; then
    read -r toolchain <"${at%/*}/../KIT-ID"
  else
    toolchain=$("$rt" version 2>/dev/null) ||
      stop "'$rt' does not run: the program cannot be made, nor can it be seen what one was made by"
  fi
}

# A digest, the toolchain's version, and the size and the times of each source.
stamps() {
  printf '%s\n%s\n' "$1" "$toolchain"
  cd "$here" || exit
  exec find crates crates.txt -type d -name out -prune -o -type f -printf '%p %s %T@ %C@\n'
}

# The digest of the sources and of the toolchain.
digest() {
  {
    printf '%s\n' "$toolchain"
    cd "$here" || exit
    find crates crates.txt -type d -name out -prune -o -type f -print0 | LC_ALL=C sort -z | xargs -0 sha256sum
  } | sha256sum | cut -c 1-32
}

# Sets `of`: the digest of now, the one that is kept where no size and no time has changed.
name_sources() {
  local toolchain room
  name_toolchain
  if [ -r "$kept/stamps" ] && read -r of <"$kept/stamps" && stamps "$of" | cmp -s - "$kept/stamps"; then
    return
  fi
  # what changes while the digest is made has other stamps at the next call; where nothing can be kept, it is made anew
  # at each call
  if mkdir -p "$kept" 2>/dev/null && room=$(mktemp "$kept/stamps.XXXXXX" 2>/dev/null); then
    (stamps - | tail -n +2 >"$room")
    of=$(digest)
    sed -i "1i $of" "$room"
    mv -f "$room" "$kept/stamps"
  else
    of=$(digest)
  fi
}

# Sets `proved`, `optimised`, `quick` and `checked`: where executables of the sources as they stand are kept, and
# `module`, what the optimised one is made of.
name_builds() {
  local of
  name_sources
  proved=$kept/proved-$of
  optimised=$kept/optimised-$of
  quick=$kept/quick-$of
  checked=$kept/checked-$of
  module=$kept/module-$of
}

# Whether any executable is kept, of whatever sources.
has_builds() {
  compgen -G "$kept/*-*" >/dev/null
}

# Why there is no executable.
why_none() {
  if has_builds; then
    echo "the sources or the toolchain have changed"
  else
    echo "no build yet"
  fi
}

# One build at a time.
lock() {
  mkdir -p "$kept" 2>/dev/null || stop "'$kept' cannot be made"
  exec 9>"$kept/lock" || stop "'$kept' cannot be written"
  flock -n 9 || {
    echo "usbplan: waiting for a build that is going on" >&2
    flock 9
  }
  trap clean EXIT
  trap 'exit 130' INT
  trap 'exit 143' TERM HUP
}

unlock() {
  exec 9>&-
}

# Ends `rt`, and what it has begun.
end_rt() {
  [ -n "$rt_id" ] || return 0
  kill -- "-$rt_id" 2>/dev/null || kill "$rt_id" 2>/dev/null || true
  wait "$rt_id" 2>/dev/null || true
  rt_id=
}

# Ends what was begun.
clean() {
  end_rt
  [ -z "$room" ] || rm -rf "$room"
}

# Sets `clang`, `archives` and `linker`: what an optimised build is made with. False where one is missing: `missing` names it.
find_compiler() {
  local kit
  kit=$(dirname "$(readlink -f "$rt")")/..
  clang=$kit/toolchain/bin/clang
  archives=("$kit/c/libos_c.a" "$kit/c/liblibc_c.a")
  linker=$(command -v "${CC:-cc}" || true)
  missing=
  [ -n "$linker" ] || missing="there is no '${CC:-cc}' to link with"
  [ -x "$clang" ] && [ -r "${archives[0]}" ] && [ -r "${archives[1]}" ] || missing="the toolchain has no compiler at '$clang'"
  [ -z "$missing" ]
}

# Links an object file of the program. False where that fails. Where the C library has archives it is linked statically,
# for a fixed address: a call starts sooner then, as nothing is relocated, and no page protected after that.
link() {
  local fixed=(-static -no-pie -Wl,-z,noseparate-code -Wl,-z,norelro)
  "$linker" "${fixed[@]}" "$1" "${archives[@]}" -lm -o "$2" 2>/dev/null && return
  "$linker" "$1" "${archives[@]}" -lm -o "$2" 2>>"$room/notes" || {
    missing="'$linker' ended with status $?"
    return 1
  }
}

# Shows on a terminal what is being done, and since how many seconds.
show() {
  [ ! -t 2 ] || printf '\rusbplan: %s, %d s ' "$1" $((SECONDS - $2)) >&2
}

clear_line() {
  [ ! -t 2 ] || printf '\r\033[K' >&2
}

# Keeps an executable that works on one packet, in place of those of other sources, if these are still the sources.
keep() {
  local one=$1 at=$2
  [ -f "$one" ] || stop "the program was made, but its executable was not caught: call again"
  chmod 755 "$one"
  [ "$("$one" <"$crate/stdin" 2>/dev/null)" = "$(cat "$crate/stdout")" ] || stop "the program was made, but does not work"
  name_builds
  case "$at" in
    "$proved" | "$optimised" | "$quick" | "$checked") ;;
    *) stop "the sources changed while the program was made: call again" ;;
  esac
  find "$kept" -maxdepth 1 -type f -name "$(basename "${at%-*}")-*" -delete
  mv -f "$one" "$at"
  rm -rf "$room"
  room=
}
