# The program built without proofs and with checks in it. ./flock reads this file after tools/program.sh.
#
# The kit builds only what is proved, but for `rt try`. That makes such a build, runs it and keeps no file of it. So it
# is given a long run to make, and the program is kept by a second name while it runs.

# Whether this is the whole program: with no words it refuses them.
refuses_no_words() {
  [ "$("$1" 2>&1 < /dev/null)" = 'flock: words refused' ]
}

# Told to stop, rt ends what it started.
end_build() {
  trap '' HUP INT QUIT TERM
  [ -z "$trying" ] || { kill "$trying" && wait "$trying"; } 2> /dev/null
  rm -rf "$room"
  trap - EXIT HUP INT QUIT TERM
}

interrupted() {
  end_build
  tell 'flock: interrupted, so nothing was built\n'
  exit $((128 + $1))
}

# Builds the program of the sources with this sum, and keeps it in the folder `out`.
build_checked() {
  local is_kept='' file why
  command -v rt > /dev/null || cannot 'neither a build of it nor the command rt, which builds it, is here'
  trying=
  room=$(new_room) || cannot "no file can be written in $out"
  trap end_build EXIT
  stop_by interrupted
  tell 'flock: building the program once without proofs, in about a minute\n'

  {
    mkdir "$room/cases" "$room/files" && : > "$room/cases/long" &&
      printf '%s\n' load --seed=1 --traces=1 --length=131072 --keys=32768 --buckets=1 > "$room/cases/long.args"
  } 2> /dev/null || cannot "no file can be written in $out"
  # In a group of its own: a key at the terminal comes to this script alone, which then stops rt once. A second signal
  # would end rt before it has ended what it started.
  set -m
  (cd "$top/crates/flock" && TMPDIR=$room/files exec rt try --cases "$room/cases") > "$room/log" 2>&1 < /dev/null &
  trying=$!
  set +m
  echo "$trying" > "$room/runs"
  while [ -z "$is_kept" ] && kill -0 "$trying" 2> /dev/null; do
    sleep 0.1
    while IFS= read -r file; do
      # While the file is written it doesn't run. A second name for it takes no time.
      if ln "$file" "$room/flock" 2> /dev/null && refuses_no_words "$room/flock" &&
        keep checked "$1" "$room/flock"; then
        is_kept=1
        break
      fi
      rm -f "$room/flock"
    done < <(find "$room/files" -type f -perm -u+x -size +16k 2> /dev/null)
  done
  if [ -z "$is_kept" ]; then
    wait "$trying"
    [ $? = 1 ] && why='its sources do not build' || why='the command rt could not build it'
    # Where the disk is full, this makes room for what is told.
    rm -rf "$room/files"
    cp "$room/log" "$out/checked.log" 2> /dev/null
    cannot "$why, as $out/checked.log says"
  fi
  end_build
  [ "$(sum_of_program)" = "$1" ] && return
  rm -rf "$out/checked-$1"
  cannot 'its sources were changed while they were built, so start it again'
}
