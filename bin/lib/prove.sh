# Proves and builds by rt, and tells how far it is. Whoever sources this has sourced lock.sh, and has set scratch to a folder of its own.

# list_parts CRATE: sets parts to the crates that are to be proved for one, itself the last, by crates.txt. A crate comes behind those that it
# stands on, in the order in which rt proves them.
list_parts() {
  local line name
  local -A under=() met=()
  while IFS= read -r line || [ -n "$line" ]; do
    line=${line%%#*}
    name=${line%%:*}
    case $line in [A-Za-z_]*:*) under[${name%% *}]=${line#*:} ;; esac
  done <"$root/crates.txt"
  parts=()
  list_part "$1"
}

# list_part CRATE: lists what that crate stands on and is not yet listed, and then itself. What crates.txt does not list is the kit's.
list_part() {
  local lower
  [ -n "${under[$1]+listed}" ] && [ -z "${met[$1]-}" ] || return 0
  met[$1]=yes
  for lower in ${under[$1]}; do list_part "$lower"; done
  parts+=("$1")
}

# parts_of CRATE: how many crates are to be proved for one, itself among them.
parts_of() {
  local parts
  list_parts "$1"
  printf '%s' "${#parts[@]}"
}

# place_of CRATE: sets place to where a crate stands among the parts, counted from 1; fails where it is none of them.
place_of() {
  for ((place = 1; place <= ${#parts[@]}; place++)); do
    [ "${parts[place - 1]}" != "$1" ] || return 0
  done
  return 1
}

# tell_progress CRATE: copies what rt says, and tells the user of each part that is proved. rt names a crate when it begins with it, and says
# at its end that it is proved; of a part that is built and unchanged it says nothing.
tell_progress() {
  local line parts place crate='' begun=${EPOCHREALTIME/[.,]/}
  list_parts "$1"
  while IFS= read -r line || [ -n "$line" ]; do
    printf '%s\n' "$line"
    if [[ $line =~ ^rt:\ chose\ .*\ for\ ([A-Za-z0-9_]+)$ ]]; then
      crate=${BASH_REMATCH[1]} begun=${EPOCHREALTIME/[.,]/}
    elif [[ $line == logic=proved\ * ]] && place_of "$crate"; then
      note "part $place of ${#parts[@]} proved: $crate ($(((${EPOCHREALTIME/[.,]/} - begun) / 1000000)) s)"
    fi
  done
}

# rt_telling CRATE WORDS..: 'rt WORDS' in the crate's folder, with its output in scratch/rt.out and its progress told.
rt_telling() {
  local crate=$1
  shift
  (cd "$root/crates/$crate" && exec rt "$@") </dev/null 2>&1 | tell_progress "$crate" >"$scratch/rt.out"
  return "${PIPESTATUS[0]}"
}

# Whether an earlier build of one of the parts left something that this one goes on from.
has_leftovers() {
  local part
  for part in "${parts[@]}"; do
    [ -z "$(find "$root/crates/$part/out/rlib" "$root/crates/$part/out/incremental" -mindepth 1 -print -quit 2>/dev/null)" ] || return 0
  done
  return 1
}

# prove CRATE WORDS..: 'rt WORDS' in the crate's folder, which has to prove that crate and those under it. What an earlier build left may be
# half written, after a power cut for one; where a build that goes on from it fails, it is removed and everything proved once more.
prove() {
  local parts part before=no
  list_parts "$1"
  if has_leftovers; then before=yes; fi
  in_own_group rt_telling "$@" && return
  [ "$before" = yes ] || return 1
  note "that failed, and what an earlier build left in the folders out of $root/crates may be half written: removing it and proving everything once more"
  for part in "${parts[@]}"; do rm -rf "$root/crates/$part/out"; done
  in_own_group rt_telling "$@"
}

# Shows the last lines of what rt said.
show_last_lines() {
  local line
  note "the prover's last lines were:"
  tail -n 12 "$scratch/rt.out" | while IFS= read -r line; do note "  $line"; done
}
