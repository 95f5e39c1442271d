# What the fake tools of carry_out.py share: a file simulates the chip /dev/mtd0. They source this file; it isn't run
# itself.
#
# The folder FAKE_CHIP has
#   mtd0     the bytes of the chip; DEVICE of the script
#   bad      the numbers of the eraseblocks that are bad
#   locked   the numbers of the eraseblocks that are locked
#   unread   the numbers of the pages, counted over the whole chip, whose bits ECC can't correct
#   flipped  the numbers of the pages in which it corrects some bits
#   fault    lines `N HOW`: what goes wrong with the write number N, an erase or a program, counted from 1
#   mtdinfo  a word: what goes wrong with mtdinfo
#   log      a line for each write, `erase P` or `program OFFSET LENGTH`, and `mark P` if nandtest marks an eraseblock
#   blank    an eraseblock of 0xFF bytes
# The sizes are those of $CARRY_OUT_ROOT/sys/class/mtd/mtd0. FAKE_DD is the real dd.
# shellcheck shell=sh disable=SC2034
chip=$FAKE_CHIP
device=$chip/mtd0
class=$CARRY_OUT_ROOT/sys/class/mtd/mtd0
read -r size < "$class/size"
read -r peb < "$class/erasesize"
read -r page < "$class/writesize"
read -r sub < "$class/subpagesize"

# Whether a list in the chip's folder has a number.
listed() { # LIST NUMBER
  while read -r one; do
    [ "$one" != "$2" ] || return 0
  done < "$chip/$1"
  return 1
}

# Says that a slow work has begun, and waits until a signal was sent, ten seconds at most.
await_signal() {
  : > "$chip/reached"
  waits=0
  while [ ! -e "$chip/sent" ] && [ "$waits" -lt 200 ]; do
    sleep 0.05
    waits=$((waits + 1))
  done
}

# Adds a write to the log, and sets `how` to what goes wrong with it.
count_write() { # LINE
  how=
  writes=1
  while read -r _; do writes=$((writes + 1)); done < "$chip/log"
  echo "$1" >> "$chip/log"
  while read -r when what; do
    [ "$when" != "$writes" ] || how=$what
  done < "$chip/fault"
  if [ "$how" = slow ]; then
    await_signal
  fi
}

# Copies standard input to a place of the chip.
store() { # OFFSET LENGTH
  "$FAKE_DD" of="$device" bs="$sub" seek=$(($1 / sub)) count=$(($2 / sub)) conv=notrunc iflag=fullblock 2> /dev/null
}

# Sets an eraseblock to 0xFF from a place on. Its pages can be read again.
clear() { # P FROM
  store $(($1 * peb + $2)) $((peb - $2)) < "$chip/blank"
  [ -s "$chip/unread" ] || return 0
  while read -r one; do
    [ $((one * page / peb)) -eq "$1" ] || echo "$one"
  done < "$chip/unread" > "$chip/unread.new"
  mv "$chip/unread.new" "$chip/unread"
}
