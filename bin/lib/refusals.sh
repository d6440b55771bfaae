# A refused sheet in words: where it is wrong, what has to stand there, and what may have happened to it.
# A sheet's line 1 has 7 bytes and each further line 21, so a place gives its line and its character.

line_feed=10
carriage_return=13

# digits_at PLACE DIGITS: the digits that stand at a place, as they are typed.
digits_at() {
  local place code
  for ((place = $1; place < $1 + $2; place++)); do
    printf -v code %x "${bytes[place]}"
    # shellcheck disable=SC2059
    printf "\\x$code"
  done
}

# number_at PLACE DIGITS: the number that stands at a place.
number_at() { printf '%s' "$((16#$(digits_at "$1" "$2")))"; }

# find_place PLACE: sets line and character, both counted from 1, and rows to what line 1 announces, empty where it is not yet known there.
find_place() {
  rows=
  if [ "$1" -ge 6 ]; then rows=$(number_at 4 2); fi
  if [ "$1" -lt 7 ]; then
    line=1 character=$(($1 + 1))
  else
    line=$((($1 - 7) / 21 + 2)) character=$((($1 - 7) % 21 + 1))
  fi
}

# What has to stand at line and character: kind, digit, feed, or nothing.
wanted_there() {
  if ((line > 1 && line > rows + 1)); then
    echo nothing
  elif ((character <= 2)); then
    echo kind
  elif ((character == (line == 1 ? 7 : 21))); then
    echo feed
  else
    echo digit
  fi
}

# The number that a digit at line and character belongs to.
number_there() {
  if ((line > 1)); then
    local names=("cost C" "deadline D" "period T")
    printf 'the %s of row %s, where rows are counted from 0' "${names[(character - 3) / 6]}" "$((line - 2))"
  elif ((character <= 4)); then
    printf 'the number of processors'
  else
    printf 'the number of rows'
  fi
}

# What has to stand at line and character, in words.
wanted_words() {
  case $(wanted_there) in
  nothing) printf 'nothing more, for line 1 announces %s, and the sheet ends with line %s' "$(rows_words)" "$((rows + 1))" ;;
  kind)
    if ((line == 1)); then printf 'the kind 01, with which line 1 begins'; else printf 'the kind 02, with which the line of a row begins'; fi
    ;;
  feed) printf 'a line feed, which ends the line after %s characters' "$((character - 1))" ;;
  digit) printf 'a digit 0-9, A-F or a-f of %s' "$(number_there)" ;;
  esac
}

# The number of rows that line 1 announces, in decimal and as it is typed.
rows_words() {
  case $rows in
  1) printf '1 row' ;;
  *) printf '%s rows' "$rows" ;;
  esac
  printf ' (written %s, hexadecimal)' "$(digits_at 4 2)"
}

# found_words PLACE: what stands at a place, in words.
found_words() {
  local byte=${bytes[$1]-end}
  case $byte in
  end) printf 'the end of the sheet' ;;
  9) printf 'a tab' ;;
  "$line_feed") printf 'a line feed' ;;
  "$carriage_return") printf 'a carriage return' ;;
  32) printf 'a space' ;;
  *)
    if ((byte > 32 && byte < 127)); then
      # shellcheck disable=SC2059
      printf "'\\x$(printf %x "$byte")'"
    else
      printf 'the byte %02X (hexadecimal), which is no letter and no digit' "$byte"
    fi
    ;;
  esac
}

# stands_among BYTE TEXT: whether a byte is one of the characters of a text.
stands_among() {
  local among character
  for ((among = 0; among < ${#2}; among++)); do
    printf -v character '%d' "'${2:among:1}"
    [ "$1" -ne "$character" ] || return 0
  done
  return 1
}

# Whether there is nothing but blanks from a place on to the end of its line.
rest_is_blank() {
  local place
  for ((place = $1; place < ${#bytes[@]} && bytes[place] != line_feed; place++)); do
    stands_among "${bytes[place]}" $' \t\r' || return 1
  done
}

# looks_like_table PLACE: whether a space, a tab, a comma or a semicolon stands at a place or behind it.
looks_like_table() {
  case " ${bytes[*]:$1} " in
  *" 32 "* | *" 9 "* | *" 44 "* | *" 59 "*) return 0 ;;
  *) return 1 ;;
  esac
}

# Why a sheet ends too early at line and character.
hint_for_end() {
  if [ ${#bytes[@]} -eq 0 ]; then
    echo "the sheet is empty: was it saved, and is it the right file?"
  elif [ "$(wanted_there)" = feed ] && ((line == rows + 1)); then
    echo "only the last line feed is missing: set the cursor behind the last digit, press Enter, and save"
  elif [ -n "$rows" ]; then
    echo "line 1 announces $(rows_words), so the sheet has $((rows + 1)) lines: rows are missing, or that number is wrong"
  else
    echo "line 1 has 01, two digits for the processors, two digits for the rows, and a line feed"
  fi
}

# What the mark is with which some editors begin a file, if there is one.
hint_for_mark() {
  case "${bytes[*]:0:3} " in
  "239 187 191 ")
    echo "the file begins with a byte-order mark, which Windows editors add: save it as plain ASCII, or as UTF-8 without the mark"
    ;;
  "255 254 "* | "254 255 "*) echo "the file was saved as UTF-16, as some Windows editors do: save it as plain ASCII" ;;
  *) return 1 ;;
  esac
}

# hint_for_more PLACE: what stands behind the last line.
hint_for_more() {
  if rest_is_blank "$1"; then
    echo "an empty line follows the last row: delete it"
  else
    echo "delete what follows, or correct the number of rows in line 1, which is hexadecimal: ten rows are written 0A"
  fi
}

# hint_for_letter BYTE: what was typed in place of a digit, or of a kind, if it is one of the usual slips.
hint_for_letter() {
  if stands_among "$1" oO; then
    echo "that is a letter; the digit is 0"
  elif stands_among "$1" Il; then
    echo "that is a letter; the digit is 1"
  else
    return 1
  fi
}

# hint_for_length PLACE: that a line is too short or too long, if it is.
hint_for_length() {
  local length=$((line == 1 ? 6 : 20))
  if [ "${bytes[$1]}" -eq "$line_feed" ]; then
    echo "line $line is too short: it has $((character - 1)) of $length characters"
  elif [ "$(wanted_there)" = feed ]; then
    echo "line $line is too long: it has more than $length characters"
  else
    return 1
  fi
}

# hint_for_form PLACE: what the form of a sheet is, where it is another.
hint_for_form() {
  if looks_like_table "$1" || stands_among "${bytes[$1]}" 'ghijkmnpqrstuvwxyzGHJKLMNPQRSTUVWXYZ.-+"'; then
    echo "this looks like a table: a sheet has no spaces, commas or words, and its numbers are hexadecimal in fixed places (400 is 000190)"
  else
    echo "line 1 begins with 01 and the line of each row with 02, and no line is left out"
  fi
}

# hint PLACE: what may have happened to a sheet that is wrong at a place, and what to do.
hint() {
  local byte=${bytes[$1]-end} wanted
  wanted=$(wanted_there)
  if [ "$byte" = end ]; then
    hint_for_end
  elif [ "$1" -eq 0 ] && hint_for_mark; then
    return
  elif [ "$byte" -eq "$carriage_return" ]; then
    echo "there are carriage returns, as Windows editors write them: save the sheet with Unix line ends (LF)"
  elif [ "$wanted" = nothing ]; then
    hint_for_more "$1"
  elif [ "$wanted" = feed ] && rest_is_blank "$1"; then
    echo "there are spaces at the end of line $line: delete them"
  elif [ "$wanted" = feed ] || ! hint_for_letter "$byte"; then
    hint_for_length "$1" || hint_for_form "$1"
  fi
}

# form_words PLACE: refusal 1 in words.
form_words() {
  find_place "$1"
  echo "refusal 1: line $line, character $character is wrong, both counted from 1: found $(found_words "$1"), expected $(wanted_words)"
  echo "hint: $(hint "$1")"
}

# count_words NUMBER: refusals 2, 3 and 4 in words, with the number that was read.
count_words() {
  local place=4 digits="characters 5 and 6" what="rows" number
  if [ "$1" -eq 4 ]; then place=2 digits="characters 3 and 4" what="processors"; fi
  number=$(number_at "$place" 2)
  echo "refusal $1: line 1 announces $number $what, and 1 to 64 are allowed"
  echo "hint: it is written $(digits_at "$place" 2) in $digits of line 1, which is hexadecimal: ten is 0A, and 64 is 40"
}

# row_words ROW: refusal 8 in words, with each size that is broken.
row_words() {
  local at=$((7 + 21 * $1)) cost deadline period
  cost=$(number_at $((at + 2)) 6) deadline=$(number_at $((at + 8)) 6) period=$(number_at $((at + 14)) 6)
  printf 'refusal 8: row %s, counted from 0, in line %s has C = %s, D = %s, T = %s in decimal; 1 <= C <= D <= T <= 1,000,000 is allowed\n' \
    "$1" "$(($1 + 2))" "$cost" "$deadline" "$period"
  if ((cost < 1)); then echo "broken: the cost C is 0, and has to be at least 1"; fi
  if ((cost > deadline)); then echo "broken: the cost C = $cost is above the deadline D = $deadline"; fi
  if ((deadline > period)); then echo "broken: the deadline D = $deadline is above the period T = $period"; fi
  if ((period > 1000000)); then echo "broken: the period T = $period is above 1,000,000 microseconds, which is one second"; fi
}

# refusal_words NUMBER PLACE FILE: the refusal of the sheet in a file, in sentences, one a line.
refusal_words() {
  local bytes line character rows
  # shellcheck disable=SC2207
  bytes=($(od -An -v -tu1 "$3"))
  case $1 in
  1) form_words "$2" ;;
  2 | 3 | 4) count_words "$1" ;;
  8) row_words "$2" ;;
  *) echo "refusal $1 at place $2" ;;
  esac
}
