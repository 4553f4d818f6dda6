#!/usr/bin/env bash
# kit.sh [COMMAND ..]: says in a sentence what is wrong with the command rt, if it is missing or of a kit that doesn't prove this repository.
# Else runs the command, on fewer processors if there are less than 4 GB of memory for each: a proof may take as much.
set -euo pipefail
proof_gigabytes=4
# what says how much memory is free; tests have another file
memory=${MEMINFO:-/proc/meminfo}

stop() {
    echo "$1" >&2
    exit 1
}

command -v rt >/dev/null || stop "There is no command rt: to prove and build, put that of rattle-kit-13b or rattle-kit-13f on your PATH (README.md)."
kit=$(rt version 2>/dev/null </dev/null | head -n 1) || true
case ${kit%% *} in
    rattle-kit-13b | rattle-kit-13f) ;;
    *) stop "The command rt is of no kit that proves this repository: 'rt version' says '$kit', and has to say rattle-kit-13b or rattle-kit-13f." ;;
esac

[ $# -gt 0 ] || exit 0
processors=$(nproc)
gigabytes=$(awk '/^MemAvailable:/ { print int($2 / 1024 / 1024) }' "$memory")
served=$((gigabytes / proof_gigabytes > 0 ? gigabytes / proof_gigabytes : 1))
[ "$served" -lt "$processors" ] || exec "$@"
echo "A proof takes up to $proof_gigabytes GB of memory, and $gigabytes GB are free: $served of $processors processors are used." >&2
# (the first ones of those that this process may run on)
exec python3 -c 'import os, sys
os.sched_setaffinity(0, sorted(os.sched_getaffinity(0))[:int(sys.argv[1])])
os.execvp(sys.argv[2], sys.argv[2:])' "$served" "$@"
