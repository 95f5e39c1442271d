#!/bin/sh
# bare.sh ARCHIVE: unpacks an archive of release.sh on a Debian with only its base packages, and runs the program there.
#
# Needs debootstrap, root, and Debian's mirror. The base lies in a new folder below /tmp, which is removed afterwards.
# The archive's checksums have to be right, and `list`, `extract` and `install.sh` have to work without the kit, Python
# and a compiler. The last line is 'N passed, M failed', and the exit status is 0 if none failed.
set -eu
archive=$(realpath "${1:?bare.sh ARCHIVE}")
data=$(cd "$(dirname "$0")/../../crates/ubi_tool/data" && pwd)
base=$(mktemp -d) passed=0 failed=0
trap 'rm -rf "$base"' EXIT

debootstrap --variant=minbase bookworm "$base" >"$base.log" 2>&1 || {
    tail -n 3 "$base.log"
    exit 1
}
rm -f "$base.log"
mkdir "$base/tried"
tar -xzf "$archive" -C "$base/tried" --strip-components=1
cp "$data/root.img" "$base/root.img"

# Runs a command there, which has to print a line that begins with the second word.
try() {
    if chroot "$base" /bin/sh -c "cd /tried && $1" 2>&1 | grep -q "^$2"; then
        passed=$((passed + 1))
    else
        failed=$((failed + 1))
        echo "failed: $1"
    fi
}
try 'command -v rt python3 cc || echo bare' bare
try 'sha256sum -c --quiet SHA256SUMS && echo right' right
try './ubi_tool list /root.img' 'volumes 1'
try './ubi_tool extract /root.img --name root --out /volume.bin' 'bytes 7680'
try './install.sh /usr/local && ubi_tool check /root.img' accepted
try 'test -f /usr/local/share/man/man1/ubi_tool.1 && ubi_tool --version' 'ubi_tool '
try 'ubi_tool-carry-out; echo "status $?"' 'status 2'
echo "$passed passed, $failed failed"
[ "$failed" -eq 0 ]
