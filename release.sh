#!/bin/sh
# release.sh [--tool PROGRAM] [FOLDER]
#
# Packs ubi_tool-VERSION-linux-x86_64.tar.gz into FOLDER (by default out/ of the repository), from a tree that is built.
#   --tool PROGRAM  pack PROGRAM in place of the program that ./ubi_tool has built
#
# The archive holds the program, carry_out.sh, install.sh, the documents, the manual page, the completions, the library
# with its header, its Python module and its examples if c/build.sh has made it, a note on the licence, VERSION with the
# commit, and SHA256SUMS of all other files. The same commit and the same built files give the same archive, byte for
# byte: names are sorted, times are the commit's, owners are numbers.
# Needs GNU tar, gzip, git and sha256sum. Exit status: 0 done; 1 refused; 2 bad arguments.

set -eu
top=$(cd "$(dirname "$0")" && pwd -P)

tool='' folder=$top/out
while [ $# -gt 0 ]; do
    case $1 in
        -h | --help) sed -n '2,/^$/s/^# \{0,1\}//p' "$0"; exit 0 ;;
        --tool) [ $# -ge 2 ] || { echo "release.sh: --tool names no program" >&2; exit 2; }; tool=$2; shift ;;
        -*) echo "release.sh: no option is called $1; see release.sh --help" >&2; exit 2 ;;
        *) folder=$1 ;;
    esac
    shift
done
[ "$(git -C "$top" rev-parse --show-toplevel 2>/dev/null)" = "$top" ] || {
    echo "release.sh: $top is no clone, so no commit can be named" >&2
    exit 1
}
time=$(git -C "$top" log -1 --format=%ct)

room=$(mktemp -d)
trap 'rm -rf "$room"' EXIT
umask 022

# install.sh checks that everything is there, and writes the version and the commit.
DESTDIR=$room/installed "$top/install.sh" ${tool:+--tool "$tool"} /usr >/dev/null
usr=$room/installed/usr
version=$(sed -n 's/^ubi_tool //p' "$usr/share/doc/ubi_tool/VERSION")
name=ubi_tool-$version-linux-x86_64
made=$room/$name

mkdir -p "$made/docs" "$made/completions"
mv "$usr/bin/ubi_tool" "$made/ubi_tool"
mv "$usr/bin/ubi_tool-carry-out" "$made/carry_out.sh"
cp "$top/install.sh" "$made/install.sh"
mv "$usr"/share/doc/ubi_tool/docs/* "$usr/share/man/man1/ubi_tool.1" "$made/docs/"
mv "$usr/share/doc/ubi_tool/README.md" "$usr/share/doc/ubi_tool/CHANGELOG.md" "$usr/share/doc/ubi_tool/VERSION" "$made/"
mv "$usr/share/bash-completion/completions/ubi_tool" "$made/completions/ubi_tool.bash"
mv "$usr/share/zsh/site-functions/_ubi_tool" "$made/completions/_ubi_tool"
if [ -d "$usr/lib" ]; then
    mkdir "$made/share"
    mv "$usr/lib" "$usr/include" "$usr/share/doc/ubi_tool/examples" "$made/"
    mv "$usr/share/ubi_tool" "$made/share/"
fi
cat >"$made/LICENCE.txt" <<'END'
The owner of ubi_tool hasn't chosen a licence yet. Ask the owner before you pass this archive on.
The program and the library hold parts of the libraries of Rattle's kit, with which they were built.
END
(cd "$made" && find . -type f | LC_ALL=C sort | sed 's,^\./,,' | tr '\n' '\0' | xargs -0 sha256sum >"$room/SHA256SUMS")
mv "$room/SHA256SUMS" "$made/SHA256SUMS"
find "$made" -type d -exec chmod 755 {} +

mkdir -p "$folder"
tar -C "$room" --sort=name --format=ustar --mtime="@$time" --owner=0 --group=0 --numeric-owner -cf - "$name" |
    gzip -n -9 >"$room/archive"
mv "$room/archive" "$folder/$name.tar.gz"
(cd "$folder" && sha256sum "$name.tar.gz")
