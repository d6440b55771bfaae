# One at a time in a checkout: whoever builds, tests or measures holds the lock on the file .building, and the others wait and say so.
# The file stands beside crates/, in whose folders rt has locks of its own. Whoever sources this has set root, and has a function note that
# speaks to its user.

# The process that is waited for, with all that it started in its group; empty where there is none.
group=

# Runs a command in a process group of its own and waits for it, so that a signal ends both at once. A terminal that stops groups which write
# to it from behind does not stop this one.
in_own_group() {
  local ended
  set -m
  { trap '' TTOU && "$@"; } &
  group=$!
  set +m
  wait "$group"
  ended=$?
  group=
  return "$ended"
}

# Ends what in_own_group still waits for, with all that it started; by force what has not ended after two seconds.
end_group() {
  local turns=0
  [ -n "$group" ] || return 0
  kill -TERM -- "-$group" 2>/dev/null
  kill -CONT -- "-$group" 2>/dev/null
  wait "$group" 2>/dev/null
  while kill -0 -- "-$group" 2>/dev/null && [ "$turns" -lt 40 ]; do
    sleep 0.05
    turns=$((turns + 1))
  done
  kill -KILL -- "-$group" 2>/dev/null
  group=
}

# Who holds the lock, in words.
holder() {
  local name=
  IFS= read -r name <"$root/.building"
  printf '%s' "${name:-another call}"
}

# Waits for the lock on file 9, and says for whom. Without flock nothing is locked.
wait_for_lock() {
  command -v flock >/dev/null || return 0
  flock -n 9 && return
  note "waiting for $(holder), which works in $root: this goes on by itself when that has ended"
  in_own_group flock 9
}

# hold_lock NAME: holds the lock under a name, until this process and all that it started have ended. Where the process that started this
# one holds it there is nothing to do. Fails where the file cannot be written.
hold_lock() {
  [ "${CIRCUITRAIL_LOCKED-}" != "$root" ] || return 0
  { exec 9>>"$root/.building"; } 2>/dev/null || return 1
  wait_for_lock || return 1
  printf '%s (process %s)\n' "$1" "$$" >"$root/.building"
  export CIRCUITRAIL_LOCKED=$root
}

# Gives the lock back where this process took it.
drop_lock() {
  { : >&9; } 2>/dev/null || return 0
  exec 9>&-
  unset CIRCUITRAIL_LOCKED
}
