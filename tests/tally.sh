# What tests of scripts share: they count what held, work in a folder of their own, and start things beside themselves.
root=$(cd "$(dirname "$(readlink -f "${BASH_SOURCE[0]}")")/.." && pwd -P)
work=$(mktemp -d)
passed=0
failed=0

# Leaves nothing behind, and ends what a stand-in still does. A stand-in that may outlive its test leaves a file running.PROCESS.
clean_up() {
  local left
  for left in "$work"/running.*; do
    [ ! -e "$left" ] || kill -KILL "${left##*.}" 2>/dev/null
  done
  rm -rf "$work"
}
trap clean_up EXIT
cd "$work" || exit 2

# verdict STATUS WHAT: one pass where the test just made held, status 0.
verdict() {
  if [ "$1" -eq 0 ]; then
    passed=$((passed + 1))
  else
    printf '%s: %s\n' "$(basename "$0")" "$2"
    failed=$((failed + 1))
  fi
}

# The last lines of a test: what was counted, and its exit status.
finish() {
  echo "$passed passed, $failed failed"
  [ "$failed" -eq 0 ] && [ "$passed" -gt 0 ]
}

# until_holds COMMAND..: comes back when a command succeeds, and fails where that takes ten seconds.
until_holds() {
  local turns=0
  until "$@"; do
    sleep 0.02
    turns=$((turns + 1))
    [ "$turns" -lt 500 ] || return 1
  done
}

# aside COMMAND..: starts a program in a group of its own, as a terminal does, and sets asked to its process. What it writes goes to the file
# first, what it says to first_said.
aside() {
  rm -f running.*
  : >first
  : >first_said
  set -m
  exec "$@" >first 2>first_said &
  asked=$!
  set +m
}

# What a stand-in does first, where a test looks at how it is ended.
begin=": >'$work'/running.\$\$"

# has_begun: whether a stand-in has begun.
has_begun() { compgen -G "running.*" >/dev/null; }

# is_running: whether the stand-in that has begun is still there, and not just left to be buried.
is_running() {
  local one state
  for one in running.*; do
    { read -r _ _ state _ <"/proc/${one##*.}/stat"; } 2>/dev/null && [ "$state" != Z ] && return
  done
  return 1
}
