#!/bin/sh
# Installs into folders of its own, with spaces in their names, builds the example with what pkg-config says of it, and uninstalls.
cd "$(dirname "$(readlink -f "$0")")/.." || exit 2
there=$(mktemp -d) || exit 2
trap 'rm -rf "$there"' EXIT
unset MAKEFLAGS MAKELEVEL MFLAGS

fail() {
    echo "install.sh: $1" >&2
    exit 1
}

# What is installed below a folder, with its rights.
files() {
    (cd "$1" && find . ! -type d -printf '%p %m\n' | sort)
}

# install or uninstall DESTDIR PREFIX, with nothing said.
quietly() {
    make -s "$1" DESTDIR="$2" PREFIX="$3" >"$there/log" 2>&1 || fail "$1 failed: $(cat "$there/log")"
    [ ! -s "$there/log" ] || fail "make -s $1 says $(cat "$there/log")"
}

all='./include/towers.h 644
./lib/libtowers.a 644
./lib/pkgconfig/towers.pc 644'
stage="$there/it's a stage" prefix="$there/a prefix"
quietly install "$stage" /usr
quietly install '' "$prefix"
[ "$(files "$stage/usr")" = "$all" ] || fail "below DESTDIR are $(files "$stage/usr")"
[ "$(files "$prefix")" = "$all" ] || fail "below PREFIX are $(files "$prefix")"
[ -z "$(find "$there" -name '.towers*')" ] || fail "a folder that was tried is left"

version=$(printf '#include <towers.h>\nTOWER_VERSION\n' | ${CC:-cc} -E -P -I"$prefix/include" - | tail -n 1 | tr -d '"')
grep -qx "Version: $version" towers.pc || fail "towers.pc has another version than $version"

found=
if command -v pkg-config >/dev/null; then
    PKG_CONFIG_PATH=$prefix/lib/pkgconfig
    export PKG_CONFIG_PATH
    flags=$(pkg-config --cflags --libs towers) || exit 1
    # The words are quoted for the shell.
    eval "${CC:-cc} -std=c99 examples/host.c $flags -o \"\$there/host\"" || fail "the example does not build with $flags"
    "$there/host" >"$there/host.out" || fail "the example built with pkg-config fails"
    diff tests/host.out "$there/host.out" || exit 1
    found=", and found by pkg-config"
else
    echo "install.sh: no pkg-config: towers.pc is not tried" >&2
fi

quietly uninstall "$stage" /usr
quietly uninstall '' "$prefix"
[ -z "$(files "$stage")$(files "$prefix")" ] || fail "files are left"
make -s uninstall DESTDIR='' 'PREFIX=~/x' >"$there/log" 2>&1 && fail "uninstalled from a folder named ~"
echo "installed$found: version $version"
