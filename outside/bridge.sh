#!/bin/sh
# Builds target/bridge, the program through which the comparison calls the proved library: `outside/bridge.sh`.
# `outside/bridge.sh run` starts it, to be spoken to over standard input and output.
set -eu
unset CDPATH
cd -- "$(dirname -- "$0")/.."
archive=crates/cms/out/libcms.a
bridge=target/bridge

cannot() { # WORDS..
    printf '%s\n' "$*" >&2
    exit 2
}

[ -f "$archive" ] || cannot "$archive is missing: build it with 'rt lib' in crates/cms"

if [ "${1:-}" = run ]; then
    for source in "$archive" outside/bridge.c include/cms.h; do
        [ -n "$(find "$bridge" -newer "$source" 2>/dev/null)" ] ||
            cannot "$bridge is missing or older than $source: build it with 'outside/bridge.sh'"
    done
    exec "$bridge"
fi

command -v cc >/dev/null 2>&1 || cannot "the bridge cannot be built: no command 'cc' on the PATH"
mkdir -p target
# Every name is bound at the start: else the loader, called when a name is first used, would touch the painted stack.
cc -I include -std=c99 -pedantic -Wall -Wextra -Werror -O2 -pthread -Wl,-z,now outside/bridge.c "$archive" -o "$bridge.new"
mv "$bridge.new" "$bridge"
