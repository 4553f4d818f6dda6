#!/usr/bin/env bash
# Builds the programs with a stand-in for the command rt, which knows only the calls that the kits of README both have. Nothing is proved: the
# stand-in says so of each crate, and gives the programs of bin/. Also tries what a newcomer may have: no rt, one of another kit, little memory.
set -u
. "$(dirname "$0")/verdicts.sh"
export BUILT=$top/bin CALLS=$work/calls KIT=rattle-kit-13b UNPROVED= MEMINFO=$work/meminfo
echo 'MemAvailable: 1073741824 kB' >"$MEMINFO"

mkdir "$work/kit" "$work/tools"
cat >"$work/kit/rt" <<'END'
#!/usr/bin/env bash
echo "$*" >>"$CALLS"
case "$*" in
    version) echo "$KIT logic 0" ;;
    ci)
        for name in $(sed 's/:.*//' crates.txt); do
            if [ "$name" = "$UNPROVED" ]; then
                printf '%s\n' "== $name" "src/lib.rt:1:1: error: not so" "rt: $name NOT PROVED" '0 passed, 1 failed'
                exit 1
            fi
            printf '%s\n' "== $name" "rt: $name proved"
            if [ -f "crates/$name/src/main.rt" ]; then
                mkdir "crates/$name/out" && cp "$BUILT/${name%_cli}" "crates/$name/out/$name"
            fi
        done
        ;;
    'try -- '*) "$BUILT/ncdump" "$3" ;;
    *) echo "not in both kits: rt $*" >&2 && exit 1 ;;
esac
END
chmod +x "$work/kit/rt"

# a path without rt
for tool in awk bash dirname head; do
    ln -s "$(type -P "$tool")" "$work/tools/$tool"
done

tar -c --exclude=out --exclude=wrong-bodies -C "$top" Makefile build.sh kit.sh HANDLES VERSION CHANGELOG.md crates.txt crates samples |
    tar -x -C "$work/files"
mapfile -t crates < <(./build.sh --crates)
all=${#crates[@]}

# build COMMAND..: runs a build, however many minutes it takes
build() {
    run "$@"
    sed -i 's/, [0-9]* min so far/, N min so far/' "$work/got/stderr"
}

# building: what a build writes to standard error, if the crates from the first to the last but $1 are proved
building() {
    echo "proving and building $all crates; bin/build.log has all that is said"
    for ((i = 1; i <= all - $1; i++)); do
        echo "proved $i of $all, N min so far: ${crates[i - 1]}"
    done
}

build env PATH="$work/kit:$PATH" make -s
(echo 'A first dump, in a minute or two, by a program that is not proved yet:' && cat "$samples/stations.cdl" "$samples/stations.cdl") \
    >"$work/want/stdout"
building 0 >"$work/want/stderr"
verdict sample_is_printed_before_and_after_the_proofs 0
run cmp bin/ncgen "$ncgen"
verdict programs_are_built 0

: >"$CALLS"
build env PATH="$work/kit:$PATH" make -s bin/ncdump
verdict nothing_is_built_again 0
run grep -c . "$CALLS"
stdout '0\n'
verdict nothing_is_asked_of_rt 1
touch crates/nc_base/src/lib.rt
build env PATH="$work/kit:$PATH" make -s bin/ncdump
building 0 >"$work/want/stderr"
verdict edit_is_built 0

build env PATH="$work/kit:$PATH" UNPROVED="${crates[all - 1]}" ./build.sh
stdout 'src/lib.rt:1:1: error: not so\n'
(building 1 && echo "${crates[all - 1]} is not proved" && echo 'The programs are not built. bin/build.log has all that was said.') >"$work/want/stderr"
verdict unproved_crate_is_named 1

run env PATH="$work/tools" ./build.sh
stderr 'There is no command rt: to prove and build, put that of rattle-kit-13b or rattle-kit-13f on your PATH (README.md).\n'
verdict missing_rt 1
run env PATH="$work/kit:$PATH" KIT=rattle-kit-12a ./build.sh
stderr "The command rt is of no kit that proves this repository: 'rt version' says 'rattle-kit-12a logic 0', and has to say rattle-kit-13b or rattle-kit-13f.\n"
verdict rt_of_another_kit 1

echo 'MemAvailable: 5242880 kB' >"$MEMINFO"
run env PATH="$work/kit:$PATH" ./kit.sh nproc
stdout '1\n'
stderr "A proof takes up to 4 GB of memory, and 5 GB are free: 1 of $(nproc) processors are used.\n"
verdict little_memory 0

summary
