#!/bin/sh
# install.sh [--tool PROGRAM] PREFIX
#
# Installs ubi_tool below PREFIX, such as /usr/local. It runs in a built tree and in an unpacked release archive.
#   PREFIX          an absolute path. If DESTDIR is set in the environment, the files go to $DESTDIR$PREFIX
#   --tool PROGRAM  install PROGRAM in place of the program that ./ubi_tool has built
#
# It installs
#   bin/ubi_tool, bin/ubi_tool-carry-out (carry_out.sh)
#   share/man/man1/ubi_tool.1
#   share/bash-completion/completions/ubi_tool, share/zsh/site-functions/_ubi_tool
#   share/doc/ubi_tool/: README.md, CHANGELOG.md, docs/, and VERSION, which says the commit
#   if c/build.sh has made the library: lib/libubi.a, lib/libubi.so, include/ubi.h, share/ubi_tool/ubi.py for Python,
#   and share/doc/ubi_tool/examples/
#
# A file that exists is replaced. Exit status: 0 done; 1 refused, or a file can't be written; 2 bad arguments.

set -u
umask 022
here=$(cd "$(dirname "$0")" && pwd -P) || exit 1

# Prints the comment at the head of this file.
usage() {
    sed -n '2,/^$/s/^# \{0,1\}//p' "$0"
}

# Ends with status 1. Each file is written under another name and renamed, so that none is left half written.
refuse() {
    echo "install.sh: $*" >&2
    exit 1
}

# Ends with status 2.
wrong() {
    echo "install.sh: $*; see install.sh --help" >&2
    exit 2
}

tool='' prefix=''
while [ $# -gt 0 ]; do
    case $1 in
        -h | --help) usage && exit 0 ;;
        --tool)
            [ $# -ge 2 ] || wrong "--tool names no program"
            case $2 in
                /*) tool=$2 ;;
                *) tool=$PWD/$2 ;;
            esac
            shift
            ;;
        -*) wrong "no option is called $1" ;;
        /*) [ -z "$prefix" ] || wrong "there are two prefixes"; prefix=$1 ;;
        *) wrong "PREFIX has to be an absolute path: '$1'" ;;
    esac
    shift
done
[ -n "$prefix" ] || wrong "there is no PREFIX"
to=${DESTDIR-}${prefix%/}

# Which files are installed: those of a tree, or those of an archive, which has the program in place of the launcher.
if [ -f "$here/VERSION" ]; then
    program=$here/ubi_tool
    library=$here/lib header=$here/include/ubi.h module=$here/share/ubi_tool/ubi.py examples=$here/examples
else
    program=$here/crates/ubi_tool/out/launched/ubi_tool
    library=$here/c/out header=$here/c/out/ubi.h module=$here/c/ubi.py examples=$here/c/examples
fi
if [ -n "$tool" ]; then
    program=$tool
elif [ ! -f "$here/VERSION" ]; then
    [ -f "$program" ] || refuse "nothing is built yet: run ./ubi_tool --version first"
    for source in "$here/crates.txt" "$here"/crates/*/src/*.rt; do
        [ ! "$source" -nt "$program" ] || refuse "the program is older than its sources: run ./ubi_tool --version first"
    done
fi
[ -f "$program" ] && [ -x "$program" ] || refuse "there is no program $program"
version=$("$program" --version 2>&1)
case $version in
    'ubi_tool '[0-9]*) ;;
    *) refuse "$program doesn't say which version of ubi_tool it is" ;;
esac

# Prints the version of the program and the commit of the tree: the program itself doesn't know its commit.
version_lines() {
    if [ -f "$here/VERSION" ]; then
        cat "$here/VERSION"
        return
    fi
    echo "$version"
    if [ "$(git -C "$here" rev-parse --show-toplevel 2>/dev/null)" = "$here" ]; then
        changes=
        [ -z "$(git -C "$here" status --porcelain --untracked-files=no)" ] || changes=', with changes'
        echo "commit $(git -C "$here" rev-parse HEAD)$changes"
    else
        echo 'commit unknown'
    fi
}

# Copies a file to a place below the prefix.
put() { # MODE FROM PLACE
    [ ! -d "$to/$3" ] || refuse "$to/$3 is a directory"
    new=$to/$3.new.$$
    mkdir -p "$(dirname "$to/$3")" && cp "$2" "$new" && chmod "$1" "$new" && mv -f "$new" "$to/$3" || {
        rm -f "$new"
        refuse "$to/$3 can't be written"
    }
}

put 755 "$program" bin/ubi_tool
put 755 "$here/carry_out.sh" bin/ubi_tool-carry-out
put 644 "$here/docs/ubi_tool.1" share/man/man1/ubi_tool.1
put 644 "$here/completions/ubi_tool.bash" share/bash-completion/completions/ubi_tool
put 644 "$here/completions/_ubi_tool" share/zsh/site-functions/_ubi_tool
for page in README.md CHANGELOG.md; do
    put 644 "$here/$page" "share/doc/ubi_tool/$page"
done
for page in "$here"/docs/*.md "$here"/docs/*.png; do
    put 644 "$page" "share/doc/ubi_tool/docs/${page##*/}"
done
if [ -f "$library/libubi.a" ] && [ -f "$library/libubi.so" ] && [ -f "$header" ]; then
    put 644 "$library/libubi.a" lib/libubi.a
    put 755 "$library/libubi.so" lib/libubi.so
    put 644 "$header" include/ubi.h
    put 644 "$module" share/ubi_tool/ubi.py
    for example in "$examples"/*.c "$examples"/*.py; do
        put 644 "$example" "share/doc/ubi_tool/examples/${example##*/}"
    done
fi
# VERSION comes last: if it is there, everything is.
lines=$(mktemp) || refuse "there is no room for a temporary file"
trap 'rm -f "$lines"' EXIT
version_lines >"$lines"
put 644 "$lines" share/doc/ubi_tool/VERSION
echo "installed $version below $to"
