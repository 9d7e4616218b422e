#!/bin/sh
# Serves a world with nothing proved: scripts/try_serve.sh FOLDER PORT, as out/world 7070. It makes a world of 1,000 cells in the
# folder if there is none.
#
# The kit builds worldd in a minute or two for each of the two commands. It prints what worldd prints only at the end. So this
# prints `listening PORT` once the port is open. The server ends after two connections, or after a day.
set -eu
case $# in
2) ;;
*)
    echo "usage: scripts/try_serve.sh FOLDER PORT" >&2
    exit 2
    ;;
esac
mkdir -p "$1"
folder=$(CDPATH='' cd -- "$1" && pwd)
port=$2
open=$(printf ':%04X 00000000:0000 0A' "$port")
cd "$(dirname -- "$0")/../crates/worldd"
if grep -q "$open" /proc/net/tcp; then
    echo "try_serve.sh: port $port is taken" >&2
    exit 1
fi
[ -e "$folder/image.a" ] || rt try -- create --dir "$folder" --cells 1000 </dev/null
rt try --seconds 86400 --steps 1000000000000 -- serve --dir "$folder" --method zigzag --every 4096 --refuse-losses --port "$port" --clients 2 </dev/null &
try=$!
trap 'kill $try 2>/dev/null' INT TERM
until grep -q "$open" /proc/net/tcp; do
    kill -0 $try 2>/dev/null || break
    sleep 0.2
done
if kill -0 $try 2>/dev/null; then echo "listening $port"; fi
wait $try
