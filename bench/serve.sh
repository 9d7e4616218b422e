#!/bin/sh
# Measures a serving worldd beside Redis, PostgreSQL and SQLite, each batch durable before it is answered, and prints a table.
#
#   bench/serve.sh --csv docs/performance.csv    the whole table, an hour on a machine that does nothing else
#   bench/serve.sh --clients 50 --runs 9         a part of it; --help lists all flags
#   bench/plot.py docs/performance.csv docs/performance.svg    draws it
#
# It takes the programs that the gate, or install.sh, has built. A system that isn't installed is skipped.
top=$(cd "$(dirname "$0")/.." && pwd) || exit 1
for program in worldd world_load; do
    if [ ! -x "$top/crates/$program/out/$program" ]; then
        echo "bench: $program isn't built: run .ci/run or ./install.sh first" >&2
        exit 1
    fi
done
exec "$top/bench/beside.py" "$top/crates/worldd/out/worldd" "$top/crates/world_load/out/world_load" "$@"
