# What the scripts that test, build and measure share. Whoever sources this has set name, by which it speaks, and usage, how it is called.
root=$(cd "$(dirname "$(readlink -f "${BASH_SOURCE[0]}")")/../.." && pwd -P)
scratch=
teller=
. "$root/bin/lib/lock.sh" || exit 2

note() { printf '%s: %s\n' "$name" "$*" >&2; }

# Ends with the reason why nothing was done.
give_up() {
  note "$@"
  exit 2
}

# refuse REASON: ends with how the script is called.
refuse() { give_up "$1, and nothing was done; it is called so: $usage"; }

# Whether a word is a number, of at most 18 digits.
is_number() { [[ $1 =~ ^[0-9]{1,18}$ ]]; }

# Leaves nothing behind: nothing that runs on, no private file.
clean_up() {
  end_group
  [ -z "$teller" ] || kill "$teller" 2>/dev/null
  [ -z "$scratch" ] || rm -rf "$scratch"
}
trap clean_up EXIT
trap 'exit 129' HUP
trap 'exit 130' INT
trap 'exit 143' TERM

# Waits until nobody else builds, tests or measures here, and keeps others from it until this script has ended.
alone() { hold_lock "$name" || give_up "$root/.building cannot be locked: run this as a user who may write to $root"; }

# Says every ten seconds that something is still at work.
tell_time() {
  while sleep 10 >/dev/null 2>&1; do note "at work for $SECONDS s"; done
}

# while_telling COMMAND..: runs a command, and tells meanwhile that it is at work.
while_telling() {
  local ended
  tell_time 9>&- &
  teller=$!
  "$@"
  ended=$?
  kill "$teller" 2>/dev/null
  wait "$teller" 2>/dev/null
  teller=
  return "$ended"
}
