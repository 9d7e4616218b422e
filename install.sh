#!/bin/sh
# Installs worldd and world_load: ./install.sh PREFIX, as ./install.sh "$HOME/worldd"
#
# It first proves and builds both, as the gate does, if that isn't done yet. That takes a while. It writes
# PREFIX/bin/worldd, PREFIX/bin/world_load and PREFIX/share/worldd/worldd.service, a unit for systemd. For clients in C it
# writes PREFIX/include/cektaulis.h and PREFIX/share/pkgconfig/cektaulis.pc. In PREFIX/share it writes manual pages, and
# completions for bash, zsh and fish. It writes nothing else.
# A second run puts newer ones in their places, also while a server runs, which goes on as it is until it is started again.
# If PREFIX is root's: sudo env "PATH=$PATH" ./install.sh /usr/local
#
# ./install.sh --standby PREFIX writes the files of docs/STANDBY.md into PREFIX/share/worldd/standby, and nothing else.
# ./install.sh --uninstall PREFIX removes what both have written, and nothing else. Both need no kit.
set -eu

# Says why it ends. Control characters of a path aren't printed: a terminal would obey them.
fail() {
    printf 'install.sh: %s' "$2" | LC_ALL=C tr '[:cntrl:]' '?' >&2
    echo >&2
    exit "$1"
}

what=programs
case ${1-} in
--standby | --uninstall)
    what=${1#--}
    shift
    ;;
esac
[ $# = 1 ] || fail 2 "usage: ./install.sh [--standby | --uninstall] PREFIX"
prefix=$1
case $prefix in
'' | -*) fail 2 "PREFIX is the path of a folder, and not '$prefix'" ;;
/*) ;;
*) prefix=$PWD/$prefix ;;
esac
case $prefix in
*[\"\'\\\`\$%\&\|[:cntrl:]]*) fail 2 "a unit can't have the path $prefix: choose one without quotes, control characters and \\ \` \$ % & |" ;;
esac
printf '%s' "$prefix" | iconv -f UTF-8 -t UTF-8 >/dev/null 2>&1 || fail 2 "a unit can't have the path $prefix: it isn't UTF-8"

# Prints a line for each file of this kind: its mode, its path here, and its path below PREFIX.
files() {
    if [ "$1" = standby ]; then
        for file in promote step-down fence-peer; do
            echo "755 scripts/standby/$file share/worldd/standby/$file"
        done
        for file in standby.conf world.res; do
            echo "644 scripts/standby/$file share/worldd/standby/$file"
        done
        return
    fi
    for program in worldd world_load; do
        echo "755 crates/$program/out/$program bin/$program"
        echo "644 man/$program.1 share/man/man1/$program.1"
        echo "644 completions/$program.bash share/bash-completion/completions/$program"
        echo "644 completions/_$program share/zsh/site-functions/_$program"
        echo "644 completions/$program.fish share/fish/vendor_completions.d/$program.fish"
    done
    echo "644 clients/c/cektaulis.h include/cektaulis.h"
    echo "644 clients/c/cektaulis.pc share/pkgconfig/cektaulis.pc"
    echo "644 worldd.service share/worldd/worldd.service"
}

if [ "$what" = uninstall ]; then
    [ -d "$prefix" ] || fail 1 "there is no folder $prefix"
    for kind in programs standby; do
        files $kind | while read -r _ _ to; do
            rm -f "$prefix/$to"
        done
    done
    for folder in share/worldd/standby share/worldd; do
        [ ! -d "$prefix/$folder" ] || rmdir "$prefix/$folder" 2>/dev/null || true
    done
    echo "removed from $prefix: worldd, world_load and what belongs to them"
    exit 0
fi

# What can't be written is refused before hours of proof.
[ "$what" = standby ] || command -v rt >/dev/null || fail 1 "there is no rt: put the bin folder of the Rattle kit on the PATH"
files "$what" | while read -r _ _ to; do
    folder=$prefix/$(dirname "$to")
    mkdir -p "$folder"
    [ -w "$folder" ] || fail 1 "$folder can't be written"
done
prefix=$(CDPATH='' cd -- "$prefix" && pwd)

top=$(CDPATH='' cd -- "$(dirname -- "$0")" && pwd)
if [ "$what" = programs ]; then
    for program in worldd world_load; do
        (cd "$top/crates/$program" && rt run -- --version)
    done
fi
files "$what" | while read -r mode from to; do
    case $to in
    share/worldd/*)
        sed "s|@PREFIX@|$prefix|" "$top/$from" >"$prefix/$to"
        chmod "$mode" "$prefix/$to"
        ;;
    *) install -m "$mode" "$top/$from" "$prefix/$to" ;;
    esac
done
if [ "$what" = standby ]; then
    echo "installed: $prefix/share/worldd/standby"
    exit 0
fi
echo "installed: $prefix/bin/worldd, $prefix/bin/world_load"
echo "to serve a world for good: the first lines of $prefix/share/worldd/worldd.service"
