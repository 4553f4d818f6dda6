#!/usr/bin/env bash
# Proves and builds the programs into bin/: rt ci, in a copy that has only the crates that the programs stand on, and so no tests, examples or
# laws. Standard error says how far it is, and bin/build.log has all that rt says.
#     build.sh --crates    prints those crates
set -euo pipefail
cd "$(dirname "$0")"

# Prints the crates of the programs, whose names end in _cli, and those that they stand on, in the order of crates.txt.
crates() {
    awk '
        function need(name,    below, count, i) {
            if (!(name in line) || name in needed) return
            needed[name]
            count = split(line[name], below, /[: ]+/)
            for (i = 2; i <= count; i++) need(below[i])
        }
        /^[^#]/ { name = $1; sub(/:$/, "", name); line[name] = $0; listed[++all] = name }
        END {
            for (i = 1; i <= all; i++) if (listed[i] ~ /_cli$/) need(listed[i])
            for (i = 1; i <= all; i++) if (listed[i] in needed) print listed[i]
        }' crates.txt
}

# Copies the crates that are named, with their lines of crates.txt, into a folder.
copy_crates() {
    local folder=$1
    shift
    grep -E "^($(tr ' ' '|' <<<"$*")):" crates.txt >"$folder/crates.txt"
    tar -c --exclude=out --exclude=wrong-bodies HANDLES "${@/#/crates/}" | tar -x -C "$folder"
}

# Hands on what rt says, and says on standard error how many of the crates that are named it has proved.
progress() {
    local left=" $* " all=$# proved=0 line name
    while IFS= read -r line; do
        printf '%s\n' "$line"
        name=${line#rt: } name=${name%% *}
        case $line in
            'rt: '*' NOT PROVED') echo "$name is not proved" >&2 ;;
            # (of a crate that the newer kit has kept it says so, and may say so twice)
            'rt: '*proved* | 'rt: '*kept*)
                if [[ $left == *" $name "* ]]; then
                    left=${left/ $name / } proved=$((proved + 1))
                    echo "proved $proved of $all, $((SECONDS / 60)) min so far: $name" >&2
                fi
                ;;
        esac
    done
}

# Prints when the proof of each crate that is named began and ended, in seconds: when its folder of results was made, and when its library
# or its program was.
times() {
    local name out made
    for name in "$@"; do
        out=$copy/crates/$name/out
        for made in "$out/rlib" "$out/$name"; do
            [ ! -e "$made" ] || printf 'times: %s %s %s\n' "$name" "$(stat -c %W "$out")" "$(stat -c %Y "$made")"
        done
    done
}

mapfile -t crates < <(crates)
if [ "${1:-}" = --crates ]; then
    printf '%s\n' "${crates[@]}"
    exit
fi
kit=$PWD/kit.sh
"$kit"
copy=$(mktemp -d)
trap 'rm -rf "$copy"' EXIT
copy_crates "$copy" "${crates[@]}"
mkdir -p bin
echo "proving and building ${#crates[@]} crates; bin/build.log has all that is said" >&2
if ! (cd "$copy" && "$kit" sh -c 'exec rt ci 2>&1') | progress "${crates[@]}" >bin/build.log; then
    grep -m 20 'error\|not proved' bin/build.log || tail -n 5 bin/build.log
    echo 'The programs are not built. bin/build.log has all that was said.' >&2
    exit 1
fi
times "${crates[@]}" >>bin/build.log
for cli in "$copy"/crates/*_cli; do
    name=$(basename "$cli")
    cp "$cli/out/$name" "bin/${name%_cli}"
done
