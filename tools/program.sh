# What ./flock and ./prove share: of which files the program is built, and where what was built of them is kept. It is
# read by these two, with `top` set to the repository's folder.

out=$top/out

# Says a line on standard error, as printf makes it. Where nobody reads there any more, the script goes on.
tell() {
  trap '' PIPE
  # shellcheck disable=SC2059
  printf "$@" >&2
  trap - PIPE
}

# Says in one line that the program can't be run, and why. 70 is no status of the program.
cannot() {
  tell 'flock: the program cannot be run: %s\n' "$1"
  exit 70
}

# Has the function that is named called with its number when one of the signals comes by which scripts are stopped.
# shellcheck disable=SC2064
stop_by() {
  trap "$1 1" HUP
  trap "$1 2" INT
  trap "$1 3" QUIT
  trap "$1 15" TERM
}

# The lines of crates.txt of the program and of every crate that it uses, itself or by another, in their order.
lines_of_program() {
  local -A line=() uses=()
  local -a names=() open=(flock)
  local text name
  while read -r text || [ -n "$text" ]; do
    text=${text%%#*}
    name=${text%%[: ]*}
    if [ -n "$name" ]; then
      line[$name]=$text
      names+=("$name")
    fi
  done < "$top/crates.txt"
  while [ ${#open[@]} -gt 0 ]; do
    name=${open[0]}
    open=("${open[@]:1}")
    if [ -n "${line[$name]:-}" ] && [ -z "${uses[$name]:-}" ]; then
      uses[$name]=1
      # The libraries behind the colon, split at the spaces.
      # shellcheck disable=SC2206
      open+=(${line[$name]#*:})
    fi
  done
  for name in "${names[@]}"; do
    [ -n "${uses[$name]:-}" ] && printf '%s\n' "${line[$name]}"
  done
}

# The names of these crates, one a line.
crates_of_program() {
  lines_of_program | sed 's/[: ].*//'
}

# The folders in which their sources, definitions and proofs stand.
folders_of_program() {
  local name part
  for name in $(crates_of_program); do
    for part in src specs proofs; do
      [ -d "$top/crates/$name/$part" ] && printf '%s\n' "crates/$name/$part"
    done
  done
}

# One sum of all that the program is built from, but for the toolchain; its status is 0 where it is whole.
sum_of_program() (
  set -o pipefail
  {
    { lines_of_program || :; } | LC_ALL=C sort && { cat "$top/HANDLES" 2> /dev/null || :; } &&
      # shellcheck disable=SC2046
      (cd "$top" && find $(folders_of_program) -type f -print0 | LC_ALL=C sort -z | xargs -0 sha256sum)
  } | sha256sum | cut -c1-32
)

# What tells that one of these files is another: the time of its last change, which no command can set back, its length
# and its number. Files of crates that the program doesn't use stand there too, since to leave them out takes longer.
times_of_files() {
  (cd "$top" && find crates.txt HANDLES crates/*/{src,specs,proofs} -type f -printf '%p %C@ %s %i\n' 2> /dev/null)
}

# The sum of the program, without reading the files where none of them is another than when it was taken; nothing where
# it can't be taken.
current_sum() {
  local kept sum room
  for kept in "$out"/times-*; do
    [ -s "$kept" ] && cmp -s "$kept" <(times_of_files) && printf '%s\n' "${kept##*-}" && return
  done
  [ -d "$out" ] && room=$(new_room) && times_of_files > "$room/times"
  sum=$(sum_of_program) || sum=
  if [ -n "${room:-}" ]; then
    rm -f "$out"/times-*
    [ -z "$sum" ] || mv "$room/times" "$out/times-$sum"
    rm -rf "$room"
  fi
  printf '%s\n' "$sum"
}

# A new folder in `out`, where it can be made. What commands that were killed left there goes, with what still runs for
# them: in such a folder, `runs` has its number.
new_room() {
  local room
  for room in "$out"/new-*; do
    [[ ${room##*/} =~ ^new-([0-9]+)- && -d /proc/${BASH_REMATCH[1]} ]] && continue
    [ -s "$room/runs" ] && grep -qzF "$room/" "/proc/$(< "$room/runs")/environ" && kill "$(< "$room/runs")"
    rm -rf "$room"
  done
  mkdir -p "$out" && mktemp -d "$out/new-$$-XXXXXX"
} 2> /dev/null

# The line that names the toolchain; nothing where none is here.
toolchain() {
  local rt kit
  rt=$(command -v rt) || return 0
  kit=$(dirname "$(dirname "$(readlink -f "$rt")")")
  cat "$kit/KIT-ID" 2> /dev/null || rt version < /dev/null
}

# The program that was built so (proved, or checked), if it was built of these very files, by the toolchain that is
# here; with no toolchain here it is taken as it is.
built() {
  local at=$out/$1-$2 here
  [ -x "$at/flock" ] && [ -s "$at/flock" ] || return 1
  here=$(toolchain)
  [ -z "$here" ] || [ "$here" = "$(cat "$at/toolchain" 2> /dev/null)" ] || return 1
  printf '%s\n' "$at/flock"
}

# Keeps a program that was built so of the files with this sum, in place of those that were built so before; where
# another command has kept the same meanwhile, that one stays.
keep() {
  local room
  built "$1" "$2" > /dev/null && return
  room=$(new_room) || return 1
  cp "$3" "$room/flock" && chmod 755 "$room" "$room/flock" && toolchain > "$room/toolchain" || return 1
  rm -rf "$out/$1"-* 2> /dev/null
  mv -T "$room" "$out/$1-$2" 2> /dev/null || rm -rf "$room"
  [ -x "$out/$1-$2/flock" ]
}
