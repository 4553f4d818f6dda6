#!/usr/bin/env bash
# Runs the tests of crates/test_allocation, and the programs in bin/, with one allocation refused (refuse.c), and so for each
# allocation in turn. It proves nothing.
#
# A test ends with the error of memory where one of its allocations is refused, and passes where none is. How many it has is written
# here beside its name:
# - dumps allocate as often as the headers and the selections that they begin with, since a dump does not allocate for values;
# - texts are generated with as many allocations as they are prepared, since writing a file does not allocate.
#
# A program says in one line that it is out of memory where one of its allocations is refused (nccheck with status 2), writes nothing
# else, and leaves an old output as it was; where none is, it does what it was asked for. So it does where room for one of two lists of
# its words is refused: that is asked for again. nccheck is out of memory for one file alone: it checks the others, and counts this one.
set -u
. "$(dirname "$0")/verdicts.sh"
crate=$top/crates/test_allocation
tests=$crate/out/test_allocation_tests
names=()
made=

# refuse N COMMAND..: runs the command with allocation N refused, and keeps what it writes, its status, how often it allocated, and the bytes of
# its allocations. With 0 none is refused.
refuse() {
    : >"$work/allocations"
    REFUSED=$1 ALLOCATIONS=$work/allocations LD_PRELOAD=$work/refuse.so run "${@:2}"
    refused=$1
    read -r allocations bytes _ <"$work/allocations"
    read -r status <"$work/got/status"
    IFS= read -r -d '' out <"$work/got/stdout"
    IFS= read -r -d '' err <"$work/got/stderr"
}

# fails NAME: what the test NAME shows doesn't hold in the last run.
fails() {
    failed=$((failed + 1))
    echo "FAILED $1: $status with allocation $refused refused, of ${allocations:-?} with ${bytes:-?} bytes"
    printf '%s' "$out" "$err"
}

# has_memory_error: the last run is that of a test, and ended with the error of memory.
has_memory_error() {
    [ "$status" = 'status 101' ] && [ -z "$out" ] &&
        [ "$err" = $'Error: AllocError\nthe test failed: its result gives status 1\n' ]
}

# allocates TEST COUNT: the test ends with the error of memory where one of its COUNT allocations is refused, and passes where none is.
allocates() {
    local n
    names+=("$1: test")
    for n in $(seq "$2"); do
        refuse "$n" "$tests" "$1"
        if ! has_memory_error; then
            fails "$1"
            return
        fi
    done
    refuse $(($2 + 1)) "$tests" "$1"
    if [ "$allocations" = "$2" ]; then
        stdout '\ntest result: ok\n'
        verdict "$1" 0
    else
        fails "$1"
    fi
}

# makes FILE LIKE: the next command is to make the file, with the bytes of the file LIKE, in the place of an old one.
makes() {
    made=$1
    cp "$2" "$work/want/$made"
}

# status that a program ends with if it is out of memory, and what it writes all the same if that is so for its file and not for its words
trouble=1
rest=

# is_out_of_memory OF: the last run says that it is, for its text or file OF, or for its words, or that it can't open its output, for
# which it has no buffer; nothing else is written but what is written all the same, and an old output is as it was.
is_out_of_memory() {
    local old=
    if [ -n "$made" ]; then IFS= read -r -d '' old <"$made"; fi
    [ "$status" = "status $trouble" ] && [ "$old" = "${made:+$'old\n'}" ] || return
    [ "$err$out" = "$1: out of memory"$'\n'"$rest" ] || [ "$err$out" = "${1%%:*}: out of memory"$'\n' ] ||
        [ "$err$out" = "ncgen: $made: cannot open"$'\n' ]
}

# runs_out OF COMMAND..: the command is out of memory where one of its allocations is refused, but for two, without which it does what is
# wanted all the same. It has one at least, and the last run is one in which none is refused.
runs_out() {
    local n again=0
    for ((n = 1; ; n++)); do
        if [ -n "$made" ]; then echo old >"$made"; fi
        refuse "$n" "${@:2}"
        if [[ $allocations -lt $n ]]; then
            [ "$n" -gt 1 ]
            return
        fi
        if ! is_out_of_memory "$1"; then
            again=$((again + 1))
            [ "$again" -le 2 ] && diff -r "$work/want" "$work/got" >/dev/null || return
        fi
    done
}

# endures NAME STATUS OF COMMAND..: the command runs out of memory where allocations are refused, and else it ends so and does what is
# wanted.
endures() {
    echo "status $2" >"$work/want/status"
    if runs_out "${@:3}"; then verdict "$1" "$2"; else fails "$1"; fi
    rm -f "$work"/want/*.nc "$work"/got/*.nc
    made=
    nothing
}

# dumps NAME SAMPLE WORD..: bin/ncdump with these words endures, and prints the sample's text.
dumps() {
    cp "$samples/$2.cdl" "$work/want/stdout"
    endures "$1" 0 "ncdump: $samples/$2.nc" "$ncdump" "${@:3}" "$samples/$2.nc"
}

# generates NAME SAMPLE WORD..: bin/ncgen with these words endures, and makes the sample.
generates() {
    makes made.nc "$samples/$2.nc"
    endures "$1" 0 "ncgen: $samples/$2.cdl" "$ncgen" -o made.nc "${@:3}" "$samples/$2.cdl"
}

# weighs NAME MOST COMMAND..: the command does what is wanted, and the bytes of its allocations, all of them together, are at most MOST.
weighs() {
    refuse 0 "${@:3}"
    if [ -n "$bytes" ] && [ "$bytes" -le "$2" ]; then verdict "$1" 0; else fails "$1"; fi
    nothing
}

# note_on_standard_input: bin/ncgen makes a file of a sample that it is given there.
note_on_standard_input() {
    "$ncgen" -o made.nc <"$samples/note.cdl"
}

# check_of_a_list: bin/nccheck checks and counts the file of a list on standard input.
check_of_a_list() {
    printf '%s\0' "$samples/counters.nc" | "$nccheck" -s -0
}

# spares NAME LINE FILE..: bin/nccheck finds this in each of the files. Where one of its allocations is refused, it is out of memory for one
# of them, each in its turn, and finds it in the others, or it is out of memory for its words; but for two, without which it does all.
spares() {
    local n file lines want told= again=0
    for ((n = 1; ; n++)); do
        refuse "$n" "$nccheck" "${@:3}"
        if [ "$allocations" -lt "$n" ]; then break; fi
        told+=$err
        lines=
        for file in "${@:3}"; do
            if [ "$err" != "nccheck: $file: out of memory"$'\n' ]; then lines+=$file$2; fi
        done
        want="status 2:$lines"
        if [ "$err" = $'nccheck: out of memory\n' ]; then want='status 2:'; fi
        if [ -z "$err" ]; then
            again=$((again + 1))
            want="status 1:$lines"
        fi
        if [ "$status:$out" != "$want" ] || [ "$again" -gt 2 ]; then
            fails "$1"
            return
        fi
    done
    # what was told in all these runs: each file, and the words
    uniq <<<"${told%$'\n'}" >"$work/got/stdout"
    { echo 'nccheck: out of memory' && printf 'nccheck: %s: out of memory\n' "${@:3}"; } >"$work/want/stdout"
    verdict "$1" 1
}

# tests_of_the_crate: their names, as the program lists them.
tests_of_the_crate() {
    "$tests" --list | grep ': test$' | sort
}

${CC:-cc} -shared -fPIC -o "$work/refuse.so" "$top/tests/refuse.c" || exit 1
[ -x "$tests" ] || (cd "$crate" && rt test) || exit 1
cd "$work/got" || exit 1

# The tests, each with its allocations.
for row in dumps::whole_dumps=98 dumps::headers_and_selections=98 texts::texts_are_read=221 texts::texts_are_declared=189 \
    texts::texts_are_refused=45 texts::texts_are_generated=193 texts::texts_are_prepared=193 texts::text_read_in_three_parts=3 \
    checks::check_of_equal_names=21; do
    allocates "${row%=*}" "${row#*=}"
done
printf '%s\n' "${names[@]}" | sort >"$work/want/stdout"
run tests_of_the_crate
verdict each_test_has_its_allocations 0

# The programs.
dumps dump_of_note note
dumps dump_of_stations stations
dumps dump_of_counters counters
dumps dump_of_all_that_is_named stations -n stations -l 80 -v temperature,time,station_name
{ sed '/^data:$/,$d' "$samples/counters.cdl" && echo '}'; } >"$work/want/stdout"
endures head_of_counters 0 "ncdump: $samples/counters.nc" "$ncdump" -h "$samples/counters.nc"
stderr 'usage: ncdump [-h] [-c] [-v names] [-n name] [-l width] file\n'
endures word_that_is_no_option 1 ncdump: "$ncdump" -x
stderr 'ncdump: none.nc: cannot open\n'
endures file_that_is_not_there 1 'ncdump: none.nc' "$ncdump" none.nc
generates file_of_note note
generates file_of_stations stations -k nc6
generates file_of_counters counters -k '64-bit data'
makes note.nc "$samples/note.nc"
endures file_named_after_its_text 0 "ncgen: $samples/note.cdl" "$ncgen" -b "$samples/note.cdl"
makes made.nc "$samples/note.nc"
endures file_of_standard_input 0 'ncgen: -' note_on_standard_input
endures text_without_an_output 0 "ncgen: $samples/note.cdl" "$ncgen" "$samples/note.cdl"
echo old >"$work/old"
makes made.nc "$work/old"
stderr "ncgen: $samples/counters.cdl: line 5: unknown type\n"
endures text_with_a_fault 1 "ncgen: $samples/counters.cdl" "$ncgen" -o made.nc "$samples/counters.cdl"

trouble=2
head -c 500 "$samples/stations.nc" >../cut.nc
stdout '../cut.nc:500: error: missing: var[2] "temperature" record 2: found 500 bytes, expected at least 504\n'
endures check_of_a_cut_file 1 'nccheck: ../cut.nc' "$nccheck" ../cut.nc
stdout '1 checked: 0 with errors, 0 with violations, 0 with notes, 1 with nothing to report; 0 of other formats; 0 not checked\n'
rest=$'0 checked: 0 with errors, 0 with violations, 0 with notes, 0 with nothing to report; 0 of other formats; 1 not checked\n'
endures check_of_a_list 0 "nccheck: $samples/counters.nc" check_of_a_list
for copy in 1 2 3; do cp ../cut.nc "../cut$copy.nc"; done
spares check_of_three_files $':500: error: missing: var[2] "temperature" record 2: found 500 bytes, expected at least 504\n' ../cut{1,2,3}.nc
trouble=1
rest=

# Of each of many variables no more is held than its name and a few numbers: at most 1,500 bytes are asked for in a dump, and 3,000
# where a file is made, with those that are given back as lists grow.
many=$work/files/many
{ printf 'netcdf many {\nvariables:\n' && seq -f $'\tbyte v%.0f ;' 10000 && echo '}'; } >"$many.cdl"
weighs text_of_10000_variables 30000000 "$ncgen" -o "$many.nc" "$many.cdl"
cp "$many.cdl" "$work/want/stdout"
weighs head_of_10000_variables 15000000 "$ncdump" -h "$many.nc"
{ sed '$d' "$many.cdl" && echo data: && seq -f $'\n v%.0f = -127 ;' 10000 && echo '}'; } >"$work/want/stdout"
weighs dump_of_10000_variables 15000000 "$ncdump" "$many.nc"
summary
