# The answer of a sheet that is not refused, for people: a table in decimal, and what the verdict is worth.

# print_row ROW TASK RESULT: a line of the table, from a row's line in the sheet and its line in the answer. A row that is not marked has no
# bound, and no slack.
print_row() {
  local task=$2 result=$3 deadline bound=- slack=- marked=no
  deadline=$((16#${task:8:6}))
  if [ "${result:2:2}" = 01 ]; then
    marked=yes
    bound=$((16#${result:4:6}))
    slack=$((deadline - bound))
  fi
  print_line "$1" "$((16#${task:2:6}))" "$deadline" "$((16#${task:14:6}))" "$marked" "$bound" "$slack"
}

# print_line WORD..: a line of the table, in its columns.
print_line() { printf '%3s  %8s  %8s  %8s  %6s  %8s  %8s\n' "$@"; }

# unmarked_rows LINE..: the rows that are not marked, by the lines of the answer, in a list for people.
unmarked_rows() {
  local row=0 list=
  for result in "${@:2}"; do
    if [ "${result:2:2}" != 01 ]; then list=$list${list:+, }$row; fi
    row=$((row + 1))
  done
  printf '%s' "$list"
}

# What a yes rests on.
accepted_words() {
  cat <<'TEXT'
Accepted: RTA shows that every job of every row meets its deadline under global EDF.
This holds under the assumptions in README.md, "What the answer rests on": C is a worst case that already holds what the kernel and
interrupts take; T is the least distance between releases; jobs are independent, wait for nothing, and may be preempted and moved at
any moment at no further cost; the processors are equal. Where one of these is not so, this yes is worth nothing.
TEXT
}

# not_accepted_words ROWS: what a no does not say, and what to change.
not_accepted_words() {
  cat <<TEXT
Not accepted: RTA could not show that every deadline is met. Rows without a bound: $1.
Do not flash this sheet. It is not shown that a deadline is missed either: another test may show more.
Shorten a cost, lengthen a deadline or a period, or use more processors, and ask again.
A marked row of a sheet that is not accepted promises nothing by itself.
TEXT
}

# explain SHEET ANSWER: the answer of a sheet that is not refused, for people, from the sheet's file and the answer's text.
explain() {
  local tasks results row
  mapfile -t tasks <"$1"
  mapfile -t results <<<"${2%$'\n'}"
  printf 'processors %s, rows %s; C, D, T, bound and slack (D - bound) in microseconds; rows are counted from 0\n\n' \
    "$((16#${tasks[0]:2:2}))" "$((16#${tasks[0]:4:2}))"
  print_line row C D T marked bound slack
  for ((row = 0; row + 1 < ${#results[@]}; row++)); do print_row "$row" "${tasks[row + 1]}" "${results[row + 1]}"; done
  echo
  case ${results[0]} in
  1101*) accepted_words ;;
  *) not_accepted_words "$(unmarked_rows "${results[@]}")" ;;
  esac
}
