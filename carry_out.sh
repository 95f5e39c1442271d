#!/bin/sh
# carry_out.sh [-cmnu] [-d DUMP] [-s N] [-e N] DEVICE PLAN PAGES PEB PAGE
# carry_out.sh [-cmu] [-d DUMP] [-s N] [-e N] DEVICE PLANFILE
#
# Carries out a plan of `ubi_tool change`, `rename` or `update` on a NAND chip, one step after the other. Each is read
# back.
#   DEVICE   the MTD character device, as /dev/mtd0; UBI must not have it attached
#   PLAN     a file with the lines that the command printed
#   PAGES    the file that it wrote with --pages: the bytes of the pages that the plan programs, in the plan's order
#   PEB      the bytes of an eraseblock, and
#   PAGE     those of a page: --peb and --page of the plan
#   PLANFILE one file in place of these four. It also has the headers of the eraseblocks that the plan touches
#   -d DUMP  the dump that the plan was made from (nanddump --bb=padbad). The chip must still hold it
#   -n       compare nothing with a dump. Without PLANFILE either this or -d has to be given
#   -u       pass over eraseblocks that can't be read, if the plan doesn't touch them: -d refuses them otherwise
#   -s N     begin with step N: an earlier run did those before it
#   -e N     end after step N. The pages may then be just those up to there
#   -m       if an eraseblock fails, mark it as bad: see below
#   -c       check, and write nothing
#
# Before the first step it looks at the chip, and refuses
# - a chip that doesn't hold DUMP, or has other headers in an eraseblock than PLANFILE has. With -n it sees no more than
#   what follows
# - a fastmap's anchor that the plan doesn't erase before all else: a kernel that attaches by the fastmap takes each
#   eraseblock for what it was before the plan
# - a plan that erases or programs an eraseblock that isn't UBI's: it holds something, and neither of its headers has
#   the magic. A boot loader has none
# - a page to be programmed that isn't free
#
# With -m an eraseblock whose erase or program failed is given to `nandtest -m`, which erases it and programs it with
# other bytes. If one of these fails too, it marks it as bad; otherwise the eraseblock is erased again. No other one is
# touched. The status is 1 all the same: take a new dump and plan again.
#
# Exit status: 0 done; 1 a step failed, or was interrupted: a line says which. Those before it are done, and nothing
# after it was tried; 2 nothing was written. Needs mtdinfo, nanddump and flash_erase of mtd-utils, and nandtest for -m.
# All else may be busybox's.

# Pages are programmed with dd, since nandwrite goes on in the next eraseblock if one is bad or a program fails. For
# tests: if CARRY_OUT_ROOT names a folder, its sys and proc are read in place of /sys and /proc, and DEVICE may be a
# file.
root=${CARRY_OUT_ROOT-}

# Prints a line; to standard error if standard output can't be written, so that a full log doesn't end a plan.
say() {
  printf '%s\n' "$*" 2> /dev/null || warn "$*"
  return 0
}

# Prints a line to standard error.
warn() {
  printf 'carry_out: %s\n' "$*" >&2 2> /dev/null
  return 0
}

# Ends with status 2.
refuse() {
  warn "$*; nothing was written"
  exit 2
}

# Prints the comment at the head of this file, and ends with status 2.
usage() {
  sed -n '2,/^$/s/^# \{0,1\}//p' "$0" | sed "s,^carry_out.sh,${0##*/}," >&2
  exit 2
}

# Refuses a WORD that isn't a decimal number below 10^10.
number() { # WHAT WORD
  case $2 in
  '' | *[!0-9]* | 0?* | ???????????*) refuse "$1 isn't a number: '$2'" ;;
  esac
}

# Refuses what isn't an ordinary file that can be read.
file() { # PATH
  [ -f "$1" ] || refuse "$1 is no ordinary file"
  [ -r "$1" ] || refuse "$1 can't be read"
}

# Prints the bytes of a file.
size_of() { # FILE
  wc -c < "$1"
}

# Takes the options, and sets `options` to how many words they are.
read_options() {
  check_only='' dump='' alone='' passes='' marks='' first=1 last=''
  while getopts cd:e:mns:u option; do
    case $option in
    c) check_only=yes ;;
    d) dump=$OPTARG; [ -n "$dump" ] || refuse "-d has no file" ;;
    m) marks=yes ;;
    n) alone=yes ;;
    u) passes=yes ;;
    s) first=$OPTARG; number -s "$first" ;;
    e) last=$OPTARG; number -e "$last" ;;
    *) usage ;;
    esac
  done
  options=$((OPTIND - 1))
}

# Looks at what the plan is compared with.
look_at_options() {
  compared="$dump$plan_file"
  [ -z "$alone" ] || [ -z "$compared" ] || refuse "-n compares nothing, and goes with neither -d nor PLANFILE"
  [ -z "$alone" ] || [ -z "$marks" ] ||
    refuse "-m marks eraseblocks of the chip that the plan is of: give -d DUMP, not -n"
  [ -n "$alone$compared" ] ||
    refuse "nothing shows that $device still holds what the plan is of: give the dump with -d DUMP," \
      "or -n to compare nothing"
}

# Looks at the numbers of PEB and PAGE.
look_at_sizes() {
  [ "$((65536 * 65536))" = 4294967296 ] || refuse "this shell counts in 32 bits"
  number PEB "$peb"
  number PAGE "$page"
  [ "$page" -gt 0 ] || refuse "a page has no bytes"
  [ "$peb" -gt 0 ] || refuse "an eraseblock has no bytes"
  [ $((peb % page)) -eq 0 ] || refuse "an eraseblock of $peb bytes isn't whole pages of $page"
}

# Looks for the tools that are needed.
look_for_tools() {
  for tool in mtdinfo nanddump flash_erase dd cmp tr wc awk sed grep sort head tail cut cp cat rm sha256sum mktemp readlink; do
    command -v "$tool" > /dev/null || refuse "there is no $tool"
  done
  nanddump --help 2>&1 | grep -q dumpbad || refuse "this nanddump has no --bb=dumpbad: take that of mtd-utils"
  flash_erase --help 2>&1 | grep -q noskipbad || refuse "this flash_erase has no -N: take that of mtd-utils"
  [ -z "$marks" ] || nandtest --help 2>&1 | grep -q markbad ||
    refuse "there is no nandtest that has -m: take that of mtd-utils"
}

# Makes the blank files, an eraseblock, a page and a sub-page of 0xFF bytes; and one of zeros, as long as a header.
make_blanks() {
  for bytes in "$peb" "$page" "$sub"; do
    dd if=/dev/zero bs="$bytes" count=1 2> /dev/null | tr '\000' '\377' > "$tmp/blank.$bytes"
    [ "$(size_of "$tmp/blank.$bytes")" = "$bytes" ] || refuse "$tmp can't be written"
  done
  dd if=/dev/zero of="$tmp/zeros" bs=64 count=1 2> /dev/null || refuse "$tmp can't be written"
}

# Sets `value` to what the kernel says about the device.
attribute() { # NAME
  { IFS= read -r value < "$class/$1"; } 2> /dev/null || refuse "$class/$1 can't be read"
}

# Looks at the device: it must be NAND flash that can be written, with these sizes.
look_at_device() {
  real=$(readlink -f -- "$device") || refuse "$device isn't there"
  name=${real##*/}
  [ -e "$real" ] || refuse "$device isn't there"
  [ -c "$real" ] || [ -n "$root" ] || refuse "$device is no character device"
  case ${name#mtd} in
  "$name" | '' | *[!0-9]*) refuse "$device isn't named as /dev/mtd0" ;;
  esac
  class=$root/sys/class/mtd/$name
  attribute type
  [ "$value" = nand ] || refuse "$device is of type $value, not nand"
  attribute flags
  case ${value#0x} in
  '' | *[!0-9a-fA-F]*) refuse "$class/flags says '$value'" ;;
  esac
  [ $((0x${value#0x} & 0x400)) -ne 0 ] || refuse "$device is read only"
  attribute erasesize
  [ "$value" = "$peb" ] || refuse "an eraseblock of $device has $value bytes, not $peb"
  attribute writesize
  [ "$value" = "$page" ] || refuse "a page of $device has $value bytes, not $page"
  attribute numeraseregions
  [ "$value" = 0 ] || refuse "$device has eraseblocks of several sizes"
  attribute subpagesize
  sub=$value
  number "$class/subpagesize" "$sub"
  [ "$sub" -gt 0 ] || refuse "a sub-page of $device has no bytes"
  [ $((page % sub)) -eq 0 ] || refuse "a page of $device isn't whole sub-pages of $sub"
  attribute size
  size=$value
  case $size in
  '' | *[!0-9]* | 0*) refuse "$class/size says '$size'" ;;
  esac
  blocks=$((size / peb))
  # where the second header is, until a first one tells: in the sub-page behind that, if no plan file says it
  vid=${vid_at:-$(((63 / sub + 1) * sub))}
  [ -z "$marks" ] || [ "$size" -lt 4294967296 ] ||
    refuse "-m: nandtest takes no device of 4 GiB or more, and $device has $size bytes"
}

# Whether UBI has the device attached; sets `ubi` to the folder that says so.
attached() {
  for ubi in "$root"/sys/class/ubi/ubi*; do
    [ -r "$ubi/mtd_num" ] || continue
    read -r of < "$ubi/mtd_num"
    [ "mtd$of" != "$name" ] || return 0
  done
  return 1
}

# Refuses a device that something uses.
look_at_users() {
  ! attached || refuse "UBI has $device attached ($ubi): ubidetach -p $device"
  [ -r "$root/proc/mounts" ] || refuse "$root/proc/mounts can't be read"
  attribute name
  label=$(printf '%s\n' "$value" | sed 's/ /\\040/g')
  while read -r source _; do
    case $source in
    "/dev/mtdblock${name#mtd}" | "$name" | "mtd:$label") refuse "$device is mounted" ;;
    esac
  done < "$root/proc/mounts"
}

# Refuses a plan if a file with lines of it has bytes that none has.
look_at_bytes() { # FILE
  [ "$(tr -d 'a-z0-9= \n' < "$1" | wc -c)" -eq 0 ] || refuse "$plan has bytes that no plan has, as line ends of DOS"
}

# Reads the first line of a plan file, and sets its sizes and counts.
read_first_line() {
  file "$plan"
  dd if="$plan" bs=512 count=1 2> /dev/null | head -n 1 > "$tmp/line"
  grep -q '^plan [0-9]' "$tmp/line" || refuse "$plan is no plan file: it doesn't begin with \`plan 1\`"
  grep -q '^plan 1 ' "$tmp/line" ||
    refuse "$plan is of another version: take the carry_out.sh of the program that made it"
  look_at_bytes "$tmp/line"
  form='plan 1 peb=N page=N vid=N data=N blocks=N steps=N touched=N pages=N'
  grep -q "^$(printf '%s' "$form" | sed 's/N/[0-9][0-9]*/g')\$" "$tmp/line" ||
    refuse "line 1 of the plan: not \`$form\`"
  read -r peb page vid_at data extent steps touched have << LINE
$(tr -dc '0-9 \n' < "$tmp/line" | sed 's/^ 1 //')
LINE
  for word in "$peb" "$page" "$vid_at" "$data" "$extent" "$steps" "$touched" "$have"; do
    number "a word in line 1 of the plan" "$word"
  done
  [ "$steps" -gt 0 ] || refuse "the plan has no steps"
}

# Refuses a plan file with sizes that don't fit one another, and one of a dump that isn't the device's. A dump of the
# whole device may have a part that UBI has.
look_at_extent() {
  [ $((vid_at % 64 == 0 && vid_at >= 64 && data >= vid_at + 64 && data % page == 0 && data < peb)) -eq 1 ] ||
    refuse "$plan has a header at byte $vid_at and contents at $data, which don't fit into an eraseblock of $peb bytes"
  said="the plan is of a dump of $extent eraseblocks, and $device has $blocks"
  [ "$extent" -le "$blocks" ] || refuse "$said: it is the dump of another device"
  [ "$extent" -eq "$blocks" ] || [ -n "$dump" ] || refuse "$said: take the dump with --bb=padbad, of the whole device"
}

# Makes $tmp/plan and $tmp/pages of a plan file, and $tmp/blocks, the lines that have the headers.
copy_plan_file() {
  volumes=0
  lines=$((1 + steps + touched))
  head -n "$lines" < "$plan" > "$tmp/lines" || refuse "$plan can't be copied to $tmp"
  [ "$(wc -l < "$tmp/lines")" -eq "$lines" ] || refuse "$plan has fewer than $lines lines: it was cut short"
  look_at_bytes "$tmp/lines"
  { echo "steps $steps"; sed -n "2,$((1 + steps))p" "$tmp/lines"; } > "$tmp/plan" || refuse "$tmp can't be written"
  tail -n "+$((2 + steps))" "$tmp/lines" > "$tmp/blocks" || refuse "$tmp can't be written"
  length=$(size_of "$plan")
  from=$(size_of "$tmp/lines")
  bytes=$((have * page))
  said="$plan has $length bytes, not $((from + bytes))"
  [ "$length" -ge $((from + bytes)) ] || refuse "$said: it was cut short"
  [ "$length" -le $((from + bytes)) ] || refuse "$said: something follows its pages"
  tail -c "+$((from + 1))" < "$plan" > "$tmp/pages" || refuse "$plan can't be copied to $tmp"
  [ "$(size_of "$tmp/pages")" -eq "$bytes" ] || refuse "$plan can't be copied to $tmp"
}

# Makes $tmp/plan, the lines of the plan without those of the volumes that `update` writes, which stand before the steps;
# and sets `volumes` to how many these are.
copy_plan() {
  file "$plan"
  cat < "$plan" > "$tmp/said" || refuse "$plan can't be read"
  [ -s "$tmp/said" ] || refuse "$plan is empty"
  [ -z "$(tail -c 1 "$tmp/said")" ] || refuse "the last line of $plan has no end: it was cut short"
  volumes=$(awk '!/^volume / { exit } { n++ } END { print n + 0 }' "$tmp/said")
  tail -n +$((volumes + 1)) "$tmp/said" > "$tmp/plan" || refuse "$tmp can't be written"
  [ -s "$tmp/plan" ] || refuse "$plan has no steps"
  look_at_bytes "$tmp/plan"
}

# Makes $tmp/steps from the plan. Each line is a step: its number, its word, the eraseblock, the page, which of PAGES it
# programs, counted from 0, and what the page holds before it, going by the steps from the first on: `chip`, what it
# holds now; `blank`, since one of them erases it; or which of PAGES one of them has programmed. $tmp/named gets the
# numbers of the eraseblocks that the plan touches.
read_plan() {
  if [ -n "$plan_file" ]; then copy_plan_file; else copy_plan; fi
  awk -v blocks="${extent:-$blocks}" -v whose="${extent:+dump}" -v pages=$((peb / page)) -v first="$first" \
    -v volumes="$volumes" '
    function fault(text) { print "line " (NR + volumes) " of the plan: " text; bad = 1; exit 1 }
    NR == 1 {
      if ($0 !~ /^steps (0|[1-9][0-9]*)$/) fault("not `steps N`")
      steps = $2
      next
    }
    $0 !~ /^(erase block=(0|[1-9][0-9]*)|program block=(0|[1-9][0-9]*) page=(0|[1-9][0-9]*))$/ { fault("no step: " $0) }
    {
      n = NR - 1; p = $2; k = $3
      sub(/^block=/, "", p)
      sub(/^page=/, "", k)
      if (p + 0 >= blocks) fault("the " (whose ? whose : "device") " has " blocks " eraseblocks")
      if (k + 0 >= pages) fault("an eraseblock has " pages " pages")
    }
    $1 == "erase" {
      if (n >= first) erased[p]++
      print n, "erase", p, "-", "-", "-"
    }
    $1 == "program" {
      place = p " " erased[p] " " k
      before = (place in holds) ? holds[place] : erased[p] ? "blank" : "chip"
      if (n >= first) holds[place] = at + 0
      print n, "program", p, k, at + 0, before
      at++
    }
    END {
      if (bad) exit 1
      if (n + 0 != steps) { print "the plan has " n + 0 " steps, not " steps; exit 1 }
    }
  ' "$tmp/plan" > "$tmp/steps" || refuse "$(tail -n 1 "$tmp/steps")"
  steps=$(wc -l < "$tmp/steps")
  steps=$((steps))
  [ "$steps" -gt 0 ] || refuse "the plan has no steps"
  [ "steps $steps" = "$(head -n 1 "$tmp/plan")" ] || refuse "$tmp can't be written"
  last=${last:-$steps}
  [ "$first" -ge 1 ] || refuse "-s $first: steps are counted from 1"
  [ "$first" -le $((steps + 1)) ] || refuse "-s $first: the plan has $steps steps"
  [ "$last" -ge 1 ] || refuse "-e $last: steps are counted from 1"
  [ "$last" -le "$steps" ] || refuse "-e $last: the plan has $steps steps"
  [ "$first" -le $((last + 1)) ] || refuse "-s $first is after -e $last"
  touched_by "$steps" > "$tmp/named"
}

# Looks at how many pages a plan file has.
count_pages() {
  [ "$have" -le "$all" ] || refuse "$plan has $have pages, and programs $all"
  [ "$have" -ge "$some" ] ||
    refuse "$plan has the pages of its first steps alone, as --stop leaves them: end there with -e"
}

# Makes $tmp/headers from the lines of a plan file that have the headers: 128 bytes for each eraseblock of $tmp/named.
read_headers() {
  awk -v before=$((1 + steps)) '
    function fault(text) { print "line " (before + at) " of the plan: " text; bad = 1; exit 1 }
    FILENAME != ARGV[2] { named[++count] = $1; next }
    { at++ }
    $0 !~ /^block=(0|[1-9][0-9]*) ec=[0-9a-f]+ vid=[0-9a-f]+$/ || length($2) != 131 || length($3) != 132 {
      fault("not `block=P ec=HEX vid=HEX` with 128 digits each")
    }
    {
      p = substr($1, 7)
      if (at > 1 && p + 0 <= above + 0) fault("eraseblock " p " stands after " above)
      above = p
      if (at > count || p + 0 < named[at] + 0) fault("no step touches eraseblock " p)
      if (p != named[at]) fault("a step touches eraseblock " named[at] ", and its headers are missing")
      hex = substr($2, 4) substr($3, 5)
      octal = ""
      for (i = 1; i < 256; i += 2) {
        byte = index("0123456789abcdef", substr(hex, i, 1)) * 16 + index("0123456789abcdef", substr(hex, i + 1, 1)) - 17
        octal = octal sprintf("\\0%o", byte)
      }
      print octal
    }
    END {
      if (bad) exit 1
      if (at < count) { at++; fault("a step touches eraseblock " named[at] ", and its headers are missing") }
    }
  ' "$tmp/named" "$tmp/blocks" > "$tmp/octal" || refuse "$(tail -n 1 "$tmp/octal")"
  while read -r octal; do printf '%b' "$octal"; done < "$tmp/octal" > "$tmp/headers"
  [ "$(size_of "$tmp/headers")" -eq $((touched * 128)) ] || refuse "$tmp can't be written"
}

# Copies the bytes of PAGES to $tmp/pages, and sets `have` to the number of pages.
copy_pages() {
  file "$pages"
  length=$(size_of "$pages")
  have=$((length / page))
  case $length in
  $((all * page)) | $((some * page))) ;;
  *) refuse "$pages has $length bytes, not $all pages of $page" ;;
  esac
  cat < "$pages" > "$tmp/pages" || refuse "$pages can't be copied to $tmp"
  [ "$(size_of "$tmp/pages")" = "$length" ] || refuse "$pages can't be copied to $tmp"
}

# Reads the pages: `all` are those of the plan, and `some` those up to the last step that is carried out.
read_pages() {
  all=$(grep -c ' program ' "$tmp/steps")
  some=$(head -n "$last" "$tmp/steps" | grep -c ' program ')
  if [ -z "$plan_file" ]; then
    copy_pages
  else
    read_headers
    count_pages
  fi
}

# Prints the numbers of the eraseblocks that the steps from 1 to N touch.
touched_by() { # N
  head -n "$1" "$tmp/steps" | cut -d ' ' -f 3 | sort -nu
}

# Makes $tmp/marks, the eraseblocks that are bad or locked: lines of a number and BAD or RO.
read_marks() {
  # Its status is 0 even if it can't find out which eraseblocks are bad.
  mtdinfo -M "$real" > "$tmp/map" 2> "$tmp/said" || refuse "mtdinfo -M $device failed: $(head -n 1 "$tmp/said")"
  [ ! -s "$tmp/said" ] || refuse "mtdinfo -M $device: $(head -n 1 "$tmp/said")"
  [ "$(head -n 1 "$tmp/map")" = "$name" ] || refuse "$device isn't $name, says mtdinfo"
  awk '
    /^Eraseblock map:/ { on = 1; next }
    on { for (i = 1; i <= NF; i++) if ($i ~ /^[0-9]+:$/) { p = $i + 0; seen++ } else if ($i == "BAD" || $i == "RO") print p, $i }
    END { print "seen", seen + 0 }
  ' "$tmp/map" > "$tmp/marks"
  [ "$(tail -n 1 "$tmp/marks")" = "seen $blocks" ] || refuse "mtdinfo -M $device doesn't show $blocks eraseblocks"
}

# Refuses a plan that names an eraseblock that is bad or locked.
look_at_marks() {
  read_marks
  while read -r p <&3; do
    mark=$(sed -n "s/^$p //p" "$tmp/marks" | tail -n 1)
    case $mark in
    '') ;;
    BAD)
      refuse "the plan names eraseblock $p, which is BAD: it went bad since the dump, or wasn't listed with --bad." \
        "Take a new dump, with --bb=padbad, and plan again"
      ;;
    *) refuse "the plan names eraseblock $p, which is $mark" ;;
    esac
  done 3< "$tmp/named"
}

# Reads bytes of the chip into a file. Fails if they aren't read whole, and on every message except those about bits
# that ECC corrected.
get() { # FILE OFFSET LENGTH
  : > "$1"
  : > "$tmp/fault"
  nanddump -q --bb=dumpbad -s "$2" -l "$3" -f "$1" "$real" > "$tmp/said" 2>&1 || return 1
  [ ! -s "$tmp/said" ] || ! grep -v ' corrected bitflip' "$tmp/said" > "$tmp/fault" || return 1
}

# Prints why something can't be read.
reason() {
  if [ -s "$tmp/fault" ]; then head -n 1 "$tmp/fault"; else head -n 1 "$tmp/said"; fi
}

# Reads an eraseblock, or a page, of the chip.
get_block() { get "$1" $(($2 * peb)) "$peb"; } # FILE P
get_page() { get "$1" $(($2 * peb + $3 * page)) "$page"; } # FILE P K

# Copies one piece out of a file: a sub-page of a page, a page of PAGES, or an eraseblock of the dump.
piece() { # FILE FROM BYTES WHICH
  dd if="$2" of="$1" bs="$3" skip="$4" count=1 2> /dev/null
}

# Whether two files hold the same bytes, and whether a file of so many bytes is blank. Both are false for a file that
# isn't there.
same() { cmp -s "$1" "$2"; } # FILE FILE
blank() { cmp -s "$1" "$tmp/blank.$2"; } # FILE BYTES

# Sets `kind` to what 64 bytes of a file are: `ec` or `vid`, a header by its magic; `blank`, all 0xFF; or `other`. Sets
# `field` to the offset that an erase-counter header names, or to the volume that a volume-identifier header names.
look_at_header() { # FILE WHICH
  kind='' field=0
  read -r kind field << LINE
$(dd if="$1" bs=64 skip="$2" count=1 2> /dev/null | cmp -l - "$tmp/zeros" 2> /dev/null | awk '
    BEGIN { split("16777216 65536 256 1", weight) }
    {
      byte = int($2 / 100) * 64 + int($2 / 10) % 10 * 8 + $2 % 10
      word[int(($1 - 1) / 4)] += byte * weight[($1 - 1) % 4 + 1]
      full += byte == 255
    }
    END {
      kind = full == 64 ? "blank" : word[0] == 1430407459 ? "ec" : word[0] == 1430407457 ? "vid" : "other"
      printf "%s %.0f\n", kind, kind == "ec" ? word[4] : word[2]
    }
  ')
LINE
  [ -n "$kind" ] || refuse "a header can't be read with cmp and awk"
}

# Reads a page, also if it has bits that ECC can't correct.
get_header() { # FILE P K
  get_page "$@" || [ "$(size_of "$1")" -eq "$page" ] ||
    refuse "page $3 of eraseblock $2 of $device can't be read: $(reason)"
}

# Copies a page of the dump, as get_header does one of the chip.
get_dumped() { # FILE P K
  piece "$1" "$dump" "$page" $(($2 * (peb / page) + $3)) || refuse "$dump can't be read"
}

# Looks at the headers of an eraseblock: sets `own` to what its first bytes are, and `volume` to the volume that its
# second header names, if it has one. `vid` is where that header is, going by the first header, or by the last one seen.
# GET is get_dumped if it is an eraseblock of the dump.
look_at_headers() { # P [GET]
  volume=''
  "${2-get_header}" "$tmp/head" "$1" 0
  look_at_header "$tmp/head" 0
  own=$kind
  [ "$own" != blank ] || return 0
  if [ "$own" = ec ] && [ $((field % 64 == 0 && field > 0 && field < peb)) -eq 1 ]; then vid=$field; fi
  [ "$vid" -lt "$page" ] || "${2-get_header}" "$tmp/head" "$1" $((vid / page))
  look_at_header "$tmp/head" $((vid % page / 64))
  [ "$kind" != vid ] || volume=$field
}

# Whether a page can become another one by programs, that is, whether it is blank. With sub-pages, only the sub-pages of
# page 0 that change are programmed, as UBI does it, and those must be blank; `parts` is set to their numbers then.
fits() { # OLD NEW K
  parts=''
  if [ "$3" -gt 0 ] || [ "$sub" -eq "$page" ]; then
    blank "$1" "$page"
    return
  fi
  part=0
  while [ "$part" -lt $((page / sub)) ]; do
    piece "$tmp/old.sub" "$1" "$sub" "$part" || return 1
    piece "$tmp/new.sub" "$2" "$sub" "$part" || return 1
    if ! same "$tmp/old.sub" "$tmp/new.sub"; then
      blank "$tmp/old.sub" "$sub" || return 1
      parts="$parts $part"
    fi
    part=$((part + 1))
  done
}

# Whether some eraseblocks of the chip hold what the dump holds there. The status is 2 if they can't be read.
holds() { # P COUNT
  { nanddump -q --bb=dumpbad -s $(($1 * peb)) -l $(($2 * peb)) "$real" 2> "$tmp/said" ||
    echo "nanddump failed" >> "$tmp/said"; } | sha256sum > "$tmp/held"
  dd if="$dump" bs="$peb" skip="$1" count="$2" 2> /dev/null | sha256sum > "$tmp/dumped"
  ! grep -v ' corrected bitflip' "$tmp/said" > "$tmp/fault" || return 2
  [ -s "$tmp/held" ] && same "$tmp/held" "$tmp/dumped" || return 1
}

# Passes over an eraseblock with bits that ECC can't correct, if -u was given and the plan doesn't touch it.
pass_over() { # P
  unread="eraseblock $1 of $device can't be read"
  ! grep -q "^$1\$" "$tmp/named" || refuse "$unread, and the plan touches it: $(reason)"
  ! grep -qv uncorrectable "$tmp/fault" || refuse "$unread: $(reason)"
  [ -n "$passes" ] || refuse "$unread: $(reason). The plan doesn't touch it: -u passes over such eraseblocks"
  warn "$unread, and isn't compared: $(reason)"
}

# Compares some eraseblocks of the chip with those of the dump; by halves, if they aren't the same or can't be read.
compare() { # P COUNT
  holds "$1" "$2"
  held=$?
  [ "$held" -ne 0 ] || return 0
  if [ "$2" -gt 1 ]; then
    compare "$1" $(($2 / 2))
    compare $(($1 + $2 / 2)) $(($2 - $2 / 2))
    return 0
  fi
  [ "$held" -eq 2 ] || refuse "eraseblock $1 of $device isn't that of $dump: take a new dump and plan again"
  pass_over "$1"
}

# Makes $tmp/touched, the numbers of the eraseblocks that steps up to the first have touched, or may have: none, if that
# is step 1.
find_touched() {
  if [ "$first" -gt 1 ]; then touched_by "$first"; fi > "$tmp/touched"
}

# Refuses a dump that holds something where an eraseblock is bad. With --bb=padbad it is blank.
look_at_bad() {
  sed -n 's/ BAD$//p' "$tmp/marks" > "$tmp/bad"
  while read -r p <&3; do
    piece "$tmp/here" "$dump" "$peb" "$p" || refuse "$dump can't be read"
    ! blank "$tmp/here" "$peb" || continue
    # an eraseblock of the plan may tell where the second header is
    look_at_headers "$(sed -n 1p "$tmp/named")" get_dumped
    look_at_headers "$p" get_dumped
    case $own$volume in
    ec* | vid | *[0-9])
      refuse "eraseblock $p is bad, and $dump has a header of UBI there: it went bad since the dump, or that was made" \
        "without --bb=padbad. Take a new dump, with --bb=padbad, and plan again"
      ;;
    *)
      refuse "eraseblock $p is bad, and $dump has bytes there: take a new dump, with --bb=padbad, and plan again"
      ;;
    esac
  done 3< "$tmp/bad"
}

# Compares the chip with the dump, except for bad eraseblocks and those that steps up to the first have touched.
look_at_dump() {
  file "$dump"
  length=$(size_of "$dump")
  [ $((length > size)) -eq 0 ] || refuse "$dump has $length bytes and $device $size: it is the dump of another device"
  [ $((length < size)) -eq 0 ] ||
    refuse "$dump has $length bytes and $device $size: take the dump with --bb=padbad, of the whole device"
  look_at_bad
  find_touched
  # the runs of eraseblocks between those
  sort -nu "$tmp/bad" "$tmp/touched" | awk -v blocks="$blocks" '
    { if ($1 > p) print p + 0, $1 - p; p = $1 + 1 }
    END { if (blocks > p) print p + 0, blocks - p }
  ' > "$tmp/runs"
  while read -r p count <&3; do
    compare "$p" "$count"
  done 3< "$tmp/runs"
}

# Puts the headers that a plan file has for an eraseblock into $tmp/want.
put_headers() { # P
  which=$(($(grep -n "^$1\$" "$tmp/named" | cut -d : -f 1) * 2 - 2))
  for at in 0 $((vid_at / 64)); do
    dd if="$tmp/headers" of="$tmp/want" bs=64 skip="$which" seek="$at" count=1 conv=notrunc 2> /dev/null ||
      refuse "$tmp can't be written"
    which=$((which + 1))
  done
}

# Compares the chip with the headers that a plan file has, except for eraseblocks that steps up to the first have
# touched.
look_at_plan() {
  find_touched
  while read -r p <&3; do
    ! grep -q "^$p\$" "$tmp/touched" || continue
    get_block "$tmp/here" "$p" || refuse "eraseblock $p of $device can't be read, and the plan touches it: $(reason)"
    cp "$tmp/here" "$tmp/want" || refuse "$tmp can't be written"
    put_headers "$p"
    same "$tmp/here" "$tmp/want" ||
      refuse "eraseblock $p of $device isn't that of the plan: take a new dump and plan again"
  done 3< "$tmp/named"
}

# Makes $tmp/want, an eraseblock as it is after the steps before the first. Without a dump, what they don't set is taken
# from the chip; the headers, if a plan file has them, from that.
want() ( # P
  if [ -n "$dump" ]; then piece "$tmp/want" "$dump" "$peb" "$1"; else cp "$tmp/here" "$tmp/want"; fi || refuse "$tmp can't be written"
  [ -z "$plan_file" ] || put_headers "$1"
  while read -r n word p k at _ <&4; do
    [ "$n" -lt "$first" ] || break
    [ "$p" -eq "$1" ] || continue
    if [ "$word" = erase ]; then
      cp "$tmp/blank.$peb" "$tmp/want" || refuse "$tmp can't be written"
    else
      dd if="$tmp/pages" of="$tmp/want" bs="$page" skip="$at" seek="$k" count=1 conv=notrunc 2> /dev/null || refuse "$tmp can't be written"
    fi
  done 4< "$tmp/steps"
)

# Whether each sub-page of a page of $tmp/here is that of $tmp/want, or that of one of PAGES. Copies the page to
# $tmp/want then.
begun() { # K AT
  part=0
  while [ "$part" -lt $((page / sub)) ]; do
    piece "$tmp/here.sub" "$tmp/here" "$sub" $(($1 * (page / sub) + part)) || return 1
    piece "$tmp/old.sub" "$tmp/want" "$sub" $(($1 * (page / sub) + part)) || return 1
    piece "$tmp/new.sub" "$tmp/pages" "$sub" $(($2 * (page / sub) + part)) || return 1
    same "$tmp/here.sub" "$tmp/old.sub" || same "$tmp/here.sub" "$tmp/new.sub" || return 1
    part=$((part + 1))
  done
  dd if="$tmp/here" of="$tmp/want" bs="$page" skip="$1" seek="$1" count=1 conv=notrunc 2> /dev/null
}

# Looks at the eraseblocks that steps up to the first touch: the steps before it must be done. It itself may be done,
# begun, or neither.
look_at_done() {
  read -r n word own k at _ << LINE
$(sed -n "${first}p" "$tmp/steps")
LINE
  touched_by "$first" > "$tmp/touched"
  while read -r p <&3; do
    if ! get_block "$tmp/here" "$p"; then
      # an erase that was cut may leave this behind
      [ "$p $word" != "$own erase" ] || continue
      refuse "eraseblock $p of $device can't be read: $(reason)"
    fi
    want "$p" || exit 2
    same "$tmp/here" "$tmp/want" && continue
    case "$p $word" in
    "$own erase") blank "$tmp/here" "$peb" && continue ;;
    "$own program") begun "$k" "$at" && same "$tmp/here" "$tmp/want" && continue ;;
    esac
    refuse "eraseblock $p of $device isn't as the steps before step $first leave it: begin with another step, or plan again on a new dump"
  done 3< "$tmp/touched"
}

# Refuses a fastmap's anchor, an eraseblock of volume 0x7FFFF000, that isn't erased before all else. A kernel looks for
# it in the first 64 eraseblocks of what it attaches. If that is only a part of the device, it begins at the first
# header or before it, and not behind the eraseblocks of the plan.
look_at_anchors() {
  p=$(sed -n 1p "$tmp/named")
  end=$((p + 64)) begun='' anchors=''
  look_at_headers "$p"
  p=0
  bad=" $(sed -n 's/ BAD$//p' "$tmp/marks" | tr '\n' ' ')"
  while [ "$p" -lt "$blocks" ] && [ "$p" -lt "$end" ]; do
    case $bad in
    *" $p "*) ;;
    *)
      look_at_headers "$p"
      if [ -z "$begun" ] && [ "$own" = ec ]; then begun=yes end=$((p + 64)); fi
      [ "$volume" != 2147479552 ] || anchors="$anchors $p"
      ;;
    esac
    p=$((p + 1))
  done
  [ -n "$anchors" ] || return 0
  kept=$(awk -v first="$first" -v anchors="$anchors" '
    BEGIN { count = split(anchors, anchor); for (i = 1; i <= count; i++) is_one[anchor[i]] = 1 }
    $1 < first { next }
    !($3 in is_one) { exit }
    $2 == "erase" { erased[$3] = 1 }
    END { for (i = 1; i <= count; i++) if (!(anchor[i] in erased)) { print anchor[i]; exit } }
  ' "$tmp/steps")
  [ -n "$kept" ] || return 0
  erase="flash_erase -N $device $((kept * peb)) 1"
  refuse "eraseblock $kept of $device holds the anchor of a fastmap, and the plan doesn't erase it before all else:" \
    "erase it ($erase), take a new dump, and plan again"
}

# Adds to `anchors` those that steps before the first have erased, going by the plan file or the dump.
look_at_erased() {
  if [ -n "$plan_file" ]; then
    # a volume-identifier header has its magic, 4 bytes, and then the volume
    erased=$(sed -n 's/^block=\([0-9]*\) .* vid=55424921........7ffff000.*/\1/p' "$tmp/blocks" | tr '\n' ' ')
    anchors="$anchors $erased"
  elif [ -n "$dump" ]; then
    awk -v first="$first" '$1 < first && $2 == "erase" && !seen[$3]++ { print $3 }' "$tmp/steps" > "$tmp/erased"
    while read -r p <&3; do
      look_at_headers "$p" get_dumped
      [ "$volume" != 2147479552 ] || anchors="$anchors $p"
    done 3< "$tmp/erased"
  fi
}

# Refuses a plan that erases or programs an eraseblock that isn't UBI's, or that programs one behind a header that isn't
# there.
look_at_owners() {
  awk -v first="$first" '$1 >= first && !($3 in seen) { seen[$3] = 1; print $1, $2, $3, $4 }' "$tmp/steps" > "$tmp/begins"
  while read -r n word p k <&3; do
    if ! get_page "$tmp/here" "$p" 0; then
      # an erase that was cut may leave this behind
      [ "$first $word" != "$n erase" ] || [ "$first" -eq 1 ] || continue
      refuse "page 0 of eraseblock $p of $device can't be read: $(reason)"
    fi
    look_at_headers "$p"
    [ "$own$volume" != other ] ||
      refuse "eraseblock $p of $device has no header of UBI, and isn't blank: it isn't that of the plan"
    [ "$own $word" != 'blank program' ] || [ "$k" -eq 0 ] ||
      refuse "eraseblock $p of $device has no header, and step $n programs page $k: it isn't that of the plan"
  done 3< "$tmp/begins"
}

# Whether $tmp/new would program page 0 a second time, with the same header, on a chip without sub-pages.
twice() { # K
  [ "$1" -eq 0 ] && [ "$sub" -eq "$page" ] || return 1
  piece "$tmp/old.sub" "$tmp/here" 64 0
  piece "$tmp/new.sub" "$tmp/new" 64 0
  same "$tmp/old.sub" "$tmp/new.sub"
}

# Looks at each page that is to be programmed, as it will be at that step.
look_at_rest() {
  while read -r n word p k at before <&3; do
    [ "$n" -ge "$first" ] || continue
    [ "$word" = program ] || continue
    [ "$at" -lt "$have" ] || continue
    piece "$tmp/new" "$tmp/pages" "$page" "$at" || refuse "$tmp can't be written"
    case $before in
    blank) continue ;;
    chip) get_page "$tmp/here" "$p" "$k" || refuse "page $k of eraseblock $p of $device can't be read: $(reason)" ;;
    *) piece "$tmp/here" "$tmp/pages" "$page" "$before" || refuse "$tmp can't be written" ;;
    esac
    same "$tmp/here" "$tmp/new" && continue
    fits "$tmp/here" "$tmp/new" "$k" && continue
    ! twice "$k" ||
      refuse "step $n programs page 0 of eraseblock $p a second time, which needs sub-pages, and $device has none"
    refuse "step $n finds bytes in page $k of eraseblock $p that it can't keep (sub-pages of $sub): plan again on a new dump"
  done 3< "$tmp/steps"
}

# Refuses a plan that has been begun: the page that it programs first holds bytes of the plan.
look_at_begun() {
  [ "$first" -eq 1 ] || return 0
  place=''
  while read -r n word p k at _ <&3; do
    [ "$word" = program ] || continue
    [ "$at" -lt "$have" ] || continue
    if [ -z "$place" ]; then
      place="$p $k"
      get_page "$tmp/here" "$p" "$k" || return 0
      ! blank "$tmp/here" "$page" || return 0
    fi
    [ "$place" = "$p $k" ] || continue
    piece "$tmp/new" "$tmp/pages" "$page" "$at" || refuse "$tmp can't be written"
    ! same "$tmp/here" "$tmp/new" || refuse "the plan has been begun already: step $n is done. Plan again on a new dump, or go on with -s"
  done 3< "$tmp/steps"
}

# Prints that the step that is carried out has failed.
say_failed() {
  warn "step $n of $steps ($what) failed: $*. Steps done: $((n - 1)); nothing after it was tried"
}

# Ends with status 1: the step that is carried out has failed.
fail() {
  say_failed "$@"
  exit 1
}

# Has flash_erase erase an eraseblock, and fails if it does, or says anything.
wipe() { # P
  # Its status is 0 even if the erase fails, or the eraseblock is skipped.
  flash_erase -q -N "$real" $(($1 * peb)) 1 > "$tmp/did" 2>&1 ||
    echo "flash_erase ended with status $?" >> "$tmp/did"
  [ ! -s "$tmp/did" ]
}

# Gives an eraseblock that failed to nandtest, and says what has become of it.
#
# No LEB is lost with what it held. If an erase failed, the step was to lose that. If a program failed, it held nothing
# that a LEB reads when the plan took it, and what it replaces is erased by a later step. The image's number is in another
# header too, as after each step that erases. So the chip means what it does with this eraseblock blank, the old or the
# new. If it stays as it is, it may have a header with the sequence number that the next plan takes again.
#
# nandtest marks an eraseblock only if an erase or a program fails once more, and its status is 0 in each case. No tool of
# mtd-utils marks one without trying it.
mark() { # P
  if attached; then
    warn "UBI has $device attached by now, so eraseblock $1 isn't marked as bad"
    return
  fi
  nandtest -m -o $(($1 * peb)) -l "$peb" "$real" > "$tmp/did" 2>&1
  if (read_marks) 2> /dev/null && grep -q "^$1 BAD\$" "$tmp/marks"; then
    warn "eraseblock $1 is marked as bad now: take a new dump, with --bb=padbad, list it in --bad, and plan again"
  elif wipe "$1" && get_block "$tmp/here" "$1" && blank "$tmp/here" "$peb"; then
    warn "eraseblock $1 isn't marked as bad: nandtest could erase and program it, and it is blank now." \
      "Take a new dump and plan again"
  else
    warn "eraseblock $1 can't be marked as bad: attach and detach the chip once, take a new dump, list it in --bad," \
      "and plan again"
  fi
}

# Ends as `fail` does. It is the eraseblock that has failed.
fail_by() { # P TEXT
  say_failed "$2"
  [ -z "$marks" ] || mark "$1"
  exit 1
}

# Ends with what a tool has said about a write: EIO is the eraseblock's.
fail_to_write() { # P
  ! grep -q -e 'Input/output error' -e 'I/O error' "$tmp/did" || fail_by "$1" "$(head -n 1 "$tmp/did")"
  fail "$(head -n 1 "$tmp/did")"
}

# Ends since something can't be read back: if ECC says so, it is the eraseblock's.
fail_to_read() { # P
  ! grep -q uncorrectable "$tmp/fault" || fail_by "$1" "it can't be read back: $(reason)"
  fail "it can't be read back: $(reason)"
}

# Erases an eraseblock.
erase() { # P
  wipe "$1" || fail_to_write "$1"
  get_block "$tmp/here" "$1" || fail_to_read "$1"
  blank "$tmp/here" "$peb" || fail_by "$1" "it isn't blank afterwards"
  how=erased
}

# Writes a file of one page or sub-page to the chip.
put() { # P FILE BYTES WHICH
  dd if="$2" of="$real" bs="$3" seek="$4" count=1 conv=notrunc 2> "$tmp/did" || fail_to_write "$1"
}

# Programs a page with one of PAGES. A page that has its bytes already isn't programmed: if those are all 0xFF, it would
# get ECC bytes.
program() { # P K AT
  piece "$tmp/new" "$tmp/pages" "$page" "$3" || fail "$tmp can't be written"
  get_page "$tmp/here" "$1" "$2" || fail "the page can't be read: $(reason)"
  if same "$tmp/here" "$tmp/new"; then
    how='has its bytes'
    return 0
  fi
  fits "$tmp/here" "$tmp/new" "$2" || fail "the page isn't blank"
  [ -n "$parts" ] || put "$1" "$tmp/new" "$page" $(($1 * (peb / page) + $2))
  for part in $parts; do
    piece "$tmp/new.sub" "$tmp/new" "$sub" "$part" || fail "$tmp can't be written"
    put "$1" "$tmp/new.sub" "$sub" $(($1 * (peb / sub) + part))
  done
  how="programmed${parts:+, sub-pages$parts}"
  get_page "$tmp/here" "$1" "$2" || fail_to_read "$1"
  same "$tmp/here" "$tmp/new" || fail_by "$1" "it reads other bytes afterwards"
}

# Carries out one step, in a shell of its own, which no signal interrupts.
step() { # WORD P K AT
  trap '' HUP INT QUIT TERM
  ! attached || fail "UBI has $device attached by now"
  if [ "$1" = erase ]; then erase "$2"; else program "$2" "$3" "$4"; fi
  say "step $n: $what: $how"
}

# Says so if the steps that are done have erased a fastmap's anchor, and no other one is left.
tell_of_fastmap() {
  # shellcheck disable=SC2086
  printf '%s\n' $anchors | sort -nu > "$tmp/anchors"
  awk -v last="$last" 'FILENAME == ARGV[1] { if ($1 <= last && $2 == "erase") erased[$3] = 1; next } !($1 in erased)' \
    "$tmp/steps" "$tmp/anchors" > "$tmp/left"
  [ -s "$tmp/left" ] || say "$device has no fastmap now, until a kernel that writes one detaches it"
}

# Carries out the steps.
carry_out() {
  interrupted=''
  trap 'interrupted=yes' HUP INT QUIT TERM
  while read -r n word p k at _ <&3; do
    [ "$n" -ge "$first" ] || continue
    [ "$n" -le "$last" ] || break
    if [ -n "$interrupted" ]; then
      warn "interrupted before step $n of $steps. Steps done: $((n - 1)); nothing after them was tried"
      exit 1
    fi
    what="$word block=$p"
    [ "$word" = erase ] || what="$what page=$k"
    (step "$word" "$p" "$k" "$at")
    ended=$?
    [ "$ended" -le 1 ] || fail "it was broken off with status $ended"
    [ "$ended" -eq 0 ] || exit 1
  done 3< "$tmp/steps"
  [ -z "$anchors" ] || tell_of_fastmap
  if [ "$last" -lt "$steps" ]; then say "ended after step $last of $steps"; else say "done: $steps steps"; fi
}

# Keeps files that are opened later from taking the number of a closed input or output.
(exec 3<&0) 2> /dev/null || exec < /dev/null
(exec 3>&1) 2> /dev/null || exec > /dev/null
(exec 3>&2) || exec 2> /dev/null
trap '' PIPE
LC_ALL=C
export LC_ALL
umask 077
read_options "$@"
shift "$options"
case $# in
2) device=$1 plan=$2 plan_file=yes ;;
5) device=$1 plan=$2 pages=$3 peb=$4 page=$5 plan_file='' vid_at='' extent='' ;;
*) usage ;;
esac
look_at_options
look_for_tools
tmp=''
trap '[ -z "$tmp" ] || rm -rf "$tmp"' EXIT
trap 'refuse interrupted' HUP INT QUIT TERM
tmp=$(mktemp -d 2> /dev/null) || refuse "no folder for scratch files can be made"
[ -z "$plan_file" ] || read_first_line
look_at_sizes
look_at_device
[ -z "$plan_file" ] || look_at_extent
look_at_users
make_blanks
read_plan
read_pages
look_at_marks
look_at_begun
[ -z "$plan_file" ] || look_at_plan
[ -z "$dump" ] || look_at_dump
look_at_anchors
look_at_erased
[ "$first" -eq 1 ] || look_at_done
look_at_owners
look_at_rest
say "checked: $device, $blocks eraseblocks, $(grep -c ' BAD$' "$tmp/marks") bad; $steps steps, $all pages"
[ -z "$check_only" ] || exit 0
carry_out
