#!/usr/bin/env bash
# Runs bin/ncdump on files on disk, and compares its standard output, its standard error and its status.
set -u
. "$(dirname "$0")/verdicts.sh"

# cdl NAME FILE TEXT: the file's dump is the text, with printf's escapes, and nothing else is written.
cdl() {
    stdout "$3"
    run "$ncdump" "$2"
    verdict "$1" 0
}

# head_of NAME FILE TEXT: the same of the file's head, with `-h` before the path and after it.
head_of() {
    stdout "$3"
    run "$ncdump" -h "$2"
    verdict "$1" 0
    stdout "$3"
    run "$ncdump" "$2" -h
    verdict "$1_with_the_option_after" 0
}

# sample NAME: the sample was made by Unidata's ncgen from the text beside it, and its dump is that text.
sample() {
    cp "$samples/$1.cdl" "$work/want/stdout"
    run "$ncdump" "$samples/$1.nc"
    verdict "dump_of_$1" 0
}

# fault NAME FILE TEXT: the file has no dump, and one line says why.
fault() {
    stderr "ncdump: $2: $3\\n"
    run "$ncdump" "$2"
    verdict "$1" 1
}

# smallest NAME: makes a file of version 1 without dimensions, attributes and variables.
smallest() {
    { printf 'CDF\001' && zeros 28; } >"$1"
}

# large NAME: makes a file whose attribute `note` is a line of 100000 bytes, more than the writer holds back.
large() {
    {
        printf 'CDF\001' && zeros 12
        printf '\000\000\000\014\000\000\000\001\000\000\000\004note\000\000\000\002\000\001\206\240'
        zeros 100000 | tr '\000' a
        zeros 8
    } >"$1"
}

# limited COMMAND..: runs the command with 256 MiB of memory and 5 seconds of processor time.
limited() (
    ulimit -v 262144
    ulimit -t 5
    exec "$@"
)

# in_little_memory COMMAND..: runs the command with 8 MiB of memory.
in_little_memory() (
    ulimit -v 8192
    exec "$@"
)

# both_into_one COMMAND..: runs the command with its standard error joined to its standard output.
both_into_one() {
    "$@" 2>&1
}

# to_full_device FILE, without_stdout FILE, without_stderr FILE: the dump where a device takes nothing.
to_full_device() {
    "$ncdump" "$1" >/dev/full
}
without_stdout() {
    "$ncdump" "$1" >&-
}
without_stderr() {
    "$ncdump" "$1" 2>&-
}


# The samples.
cdl smallest_file_of_version_1 "$samples/smallest.nc" 'netcdf smallest {\n}\n'
cdl smallest_file_of_version_5 "$samples/smallest5.nc" 'netcdf smallest5 {\n}\n'
cdl record_dimension "$samples/records.nc" \
    'netcdf records {\ndimensions:\n\tt = UNLIMITED ; // (2 currently)\n}\n'
cdl text_attribute_of_two_lines "$samples/note.nc" \
    'netcdf note {\n\n// global attributes:\n\t\t:note = "a\\n",\n\t\t\t"b\\n" ;\n}\n'

sample stations
sample counters

large large.nc
cdl long_text large.nc \
    "netcdf large {\\n\\n// global attributes:\\n\\t\\t:note = \"$(zeros 100000 | tr '\000' a)\" ;\\n}\\n"

# The head alone.
head_of head_of_a_file_without_variables "$samples/records.nc" \
    'netcdf records {\ndimensions:\n\tt = UNLIMITED ; // (2 currently)\n}\n'
{
    printf 'CDF\001' && zeros 4
    printf '\000\000\000\012\000\000\000\001\000\000\000\001x\000\000\000\000\000\000\003' && zeros 8
    printf '\000\000\000\013\000\000\000\001\000\000\000\001s\000\000\000'
    printf '\000\000\000\001\000\000\000\000' && zeros 8
    printf '\000\000\000\003\000\000\000\010\000\000\000\120\000\001\200\001\000\003\200\001'
} >generated.nc
head_of head_of_a_file_with_a_variable generated.nc \
    'netcdf generated {\ndimensions:\n\tx = 3 ;\nvariables:\n\tshort s(x) ;\n}\n'
cdl values_of_a_generated_file generated.nc \
    'netcdf generated {\ndimensions:\n\tx = 3 ;\nvariables:\n\tshort s(x) ;\ndata:\n\n s = 1, _, 3 ;\n}\n'
head -c 83 generated.nc >cut.nc
stdout 'netcdf cut {\ndimensions:\n\tx = 3 ;\nvariables:\n\tshort s(x) ;\ndata:\n\n s = 1'
stderr 'ncdump: cut.nc: variable 0: data truncated at value 1\n'
run "$ncdump" cut.nc
verdict values_up_to_the_first_missing_one 1
stdout 'netcdf cut {\ndimensions:\n\tx = 3 ;\nvariables:\n\tshort s(x) ;\ndata:\n\n s = 1ncdump: cut.nc: variable 0: data truncated at value 1\n'
run both_into_one "$ncdump" cut.nc
verdict line_comes_after_the_text 1
stderr 'ncdump: generated.nc: no such variable: item 1 of -v\n'
run "$ncdump" -v s,nope generated.nc
verdict name_that_no_variable_has 1

{
    printf 'CDF\001' && zeros 4
    printf '\000\000\000\012\000\000\000\001\000\000\000\001x\000\000\000\001\000\000\000' && zeros 8
    printf '\000\000\000\013\000\000\000\001\000\000\000\001s\000\000\000'
    printf '\000\000\000\001\000\000\000\000' && zeros 8
    printf '\000\000\000\002\001\000\000\000\000\000\000\120' && zeros 16777216
} >nuls.nc
stdout 'netcdf nuls {\ndimensions:\n\tx = 16777216 ;\nvariables:\n\tchar s(x) ;\ndata:\n\n s = "" ;\n}\n'
run in_little_memory "$ncdump" nuls.nc
verdict values_of_16_mib_in_8_mib_of_memory 0

# The name of the dataset.
smallest dir/a.b.nc
cdl name_behind_the_last_slash_to_the_last_dot dir/a.b.nc 'netcdf a.b {\n}\n'
smallest data.nc
cdl name_that_is_a_reserved_word data.nc 'netcdf \\data {\n}\n'

# Wrong headers.
: >empty.nc
fault empty_file empty.nc 'not a netCDF classic file'
printf 'CDF' >magic.nc
fault magic_without_version magic.nc 'header truncated'
printf 'CDF\006' >version6.nc
fault unknown_version version6.nc 'unknown version 6'
{
    printf 'CDF\001\000\000\000\000\000\000\000\012\000\000\000\002'
    printf '\000\000\000\001x\000\000\000\000\000\000\000'
    printf '\000\000\000\001y\000\000\000\000\000\000\000'
} >two.nc
fault two_record_dimensions two.nc 'two record dimensions'
{
    printf 'CDF\001\000\000\000\000\000\000\000\012\177\377\377\377'
    printf '\000\000\000\001x\000\000\000\000\000\000\001'
    printf '\000\000\000\001y\000\000\000\000\000\000\001'
} >hostile.nc
stderr 'ncdump: hostile.nc: header truncated\n'
run limited "$ncdump" hostile.nc
verdict hostile_count_in_little_memory_and_time 1

# Paths that can't be opened.
fault missing_path missing.nc 'cannot open'
fault directory dir 'cannot open'
mkfifo pipe
stderr 'ncdump: pipe: cannot open\n'
run timeout 10 "$ncdump" pipe
verdict pipe_without_a_writer 1

# The words.
usage='usage: ncdump [-h] [-c] [-v names] [-n name] [-l width] file\n'
stderr "$usage"
run "$ncdump"
verdict no_word 1
stderr "$usage"
run "$ncdump" data.nc data.nc
verdict two_words 1
for words in '-h' '-h -h' '-h data.nc data.nc' '-h -h data.nc' '-hh data.nc' '-c -h data.nc' '-ch data.nc' \
    '-l 19 data.nc' '-l 1001 data.nc' '-l 20x data.nc' '-l +20 data.nc' '-l 80 -l 80 data.nc' 'data.nc -l' \
    '-n a -n b data.nc' '-v' '-V data.nc' '-k data.nc' '--help' '--version' '--help data.nc'; do
    stderr "$usage"
    # The words are meant to be split.
    # shellcheck disable=SC2086
    run "$ncdump" $words
    verdict "usage_of_$(printf '%s' "$words" | tr ' ' '_')" 1
done
# Ten words ask for a dump, and the eleventh is looked at.
ten=(-c -v s -n other -l 20 -- generated.nc)
stdout 'netcdf other {\ndimensions:\n\tx = 3 ;\nvariables:\n\tshort s(x) ;\ndata:\n}\n'
run "$ncdump" "${ten[@]}"
verdict ten_words 0
for word in data.nc generated.nc -x -- ''; do
    stderr "$usage"
    run "$ncdump" "${ten[@]}" "$word"
    verdict "usage_of_eleven_words_with_${word:-nothing}" 1
done
for count in $(seq 30); do
    stderr "$usage"
    # shellcheck disable=SC2046
    run "$ncdump" data.nc $(yes data.nc | head -n "$count")
    verdict "usage_of_${count}_words_more" 1
done
stderr "$usage"
run "$ncdump" -l '' data.nc
verdict usage_of_an_empty_width 1
stderr "$usage"
run "$ncdump" "$(printf 'a\377.nc')"
verdict word_that_is_not_utf_8 1

# options NAME TEXT WORD..: the words give the text, with printf's escapes, and nothing else is written.
options() {
    stdout "$2"
    name=$1
    shift 2
    run "$ncdump" "$@"
    verdict "$name" 0
}

{
    printf 'CDF\001' && zeros 20
    printf '\000\000\000\013\000\000\000\002'
    printf '\000\000\000\001a\000\000\000' && zeros 12
    printf '\000\000\000\001\000\000\000\004\000\000\000\140'
    printf '\000\000\000\001b\000\000\000' && zeros 12
    printf '\000\000\000\001\000\000\000\004\000\000\000\144'
    printf '\007\200\200\200\010\200\200\200'
} >ab.nc
head='variables:\n\tbyte a ;\n\tbyte b ;\n}\n'
options head_of_two_variables "netcdf ab {\\n$head" -h ab.nc
options name_of_the_option "netcdf other {\\n$head" -n other -h ab.nc
options name_behind_the_path "netcdf other {\\n$head" ab.nc -hnother
options chosen_names "netcdf ab {\\n$head" -h ab.nc -v a,b
options no_coordinates "netcdf ab {\\n${head%\}*}data:\\n}\\n" -c ab.nc
options smallest_width 'netcdf a.b {\n}\n' -l 20 dir/a.b.nc
options greatest_width 'netcdf a.b {\n}\n' -l 1000 dir/a.b.nc
options width_with_zeros 'netcdf a.b {\n}\n' -l 0080 dir/a.b.nc
options path_behind_two_dashes 'netcdf a.b {\n}\n' -- dir/a.b.nc
stderr 'ncdump: ab.nc: no such variable: item 1 of -v\n'
run "$ncdump" -v a,,b ab.nc
verdict empty_name_between_commas 1
stderr 'ncdump: ab.nc: no such variable: item 0 of -v\n'
run "$ncdump" -v '' ab.nc
verdict empty_name 1
stderr 'ncdump: missing.nc: cannot open\n'
run "$ncdump" -h -n other missing.nc
verdict missing_path_with_options 1

# far BEGIN: a CDF-2 header of `short s(x)`, x = 3, whose values begin at the offset, in 16 hexadecimal digits.
far() {
    printf 'CDF\002' && zeros 4
    printf '\000\000\000\012\000\000\000\001\000\000\000\001x\000\000\000\000\000\000\003' && zeros 8
    printf '\000\000\000\013\000\000\000\001\000\000\000\001s\000\000\000\000\000\000\001' && zeros 12
    printf '\000\000\000\003\000\000\000\010'
    printf "$(printf '%s' "$1" | sed 's/../\\x&/g')"
}

# far_values FOLDER OFFSET: in a sparse file in the folder, the values at the offset are found, and none if the file ends there.
far_values() {
    local file=$1/far.nc
    far "$(printf '%016x' "$2")" >"$file"
    truncate -s "$2" "$file"
    stdout 'netcdf far {\ndimensions:\n\tx = 3 ;\nvariables:\n\tshort s(x) ;\ndata:\n\n s ='
    stderr "ncdump: $file: variable 0: data truncated at value 0\n"
    run "$ncdump" "$file"
    verdict "no_value_at_$2" 1
    printf '\022\064\126\170\232\274' >>"$file"
    cdl "values_at_$2" "$file" 'netcdf far {\ndimensions:\n\tx = 3 ;\nvariables:\n\tshort s(x) ;\ndata:\n\n s = 4660, 22136, -25924 ;\n}\n'
    rm "$file"
}

# longest FOLDER: how many bytes the longest file can have in the folder.
longest() {
    local least=0 most=9223372036854775807 middle
    while [ "$least" -lt "$most" ]; do
        middle=$((least + (most - least) / 2 + 1))
        if truncate -s "$middle" "$1/longest" 2>/dev/null; then least=$middle; else most=$((middle - 1)); fi
    done
    rm -f "$1/longest"
    echo "$least"
}

# Values past 2 and 4 GiB and past 1 TiB, in sparse files, and the last ones of the longest file: of this folder's file system, and of that
# in memory, where it may have 2^63 - 1 bytes.
for place in 3221225472 4294967296 5368709120 1099511627782 $(($(longest .) - 6)); do
    far_values "$work/files" "$place"
done
if memory=$(mktemp -d -p /dev/shm 2>/dev/null); then
    far_values "$memory" $(($(longest "$memory") - 6))
    rmdir "$memory"
fi

# ended COMMAND..: runs the command, for which each file ends at the offset in `at`, though its whole length is reported (early_end.c).
ended() {
    END=$at LD_PRELOAD=$work/early_end.so "$@"
}

# end_early NAME FILE AT..: where the file ends at these offsets though its whole length is reported, the run is each time that of the file
# cut there: the same text, the same line and the same status.
end_early() {
    local name=$1 file=$2 at status=
    shift 2
    for at; do
        head -c "$at" "$file" >early.nc
        run "$ncdump" early.nc
        cp "$work"/got/* "$work/want"
        read -r _ status <"$work/want/status"
        cp "$file" early.nc
        run ended "$ncdump" early.nc
        diff -r "$work/want" "$work/got" >/dev/null || break
    done
    verdict "$name" "$status"
}

# Files that end while they are read. That of many numbers has 80 bytes of header, and then more of `short s(x)` than one stretch that is
# read ahead; those of two record variables have 116, and then a value of each in turn.
${CC:-cc} -shared -fPIC -o "$work/early_end.so" "$top/tests/early_end.c" || exit 1
{
    head -c 24 generated.nc && printf '\000\001\206\240'
    tail -c +29 generated.nc | head -c 52 && yes 'a number in 13' | head -c 200000
} >many.nc
{
    printf 'CDF\001\000\000\041\064'
    printf '\000\000\000\012\000\000\000\001\000\000\000\001t\000\000\000\000\000\000\000' && zeros 8
    printf '\000\000\000\013\000\000\000\002'
    printf '\000\000\000\001b\000\000\000\000\000\000\001' && zeros 12
    printf '\000\000\000\001\000\000\000\004\000\000\000\164'
    printf '\000\000\000\001s\000\000\000\000\000\000\001' && zeros 12
    printf '\000\000\000\003\000\000\000\004\000\000\000\170'
    yes 'a number in 13' | head -c 68000
} >turns.nc
# The offsets are meant to be split.
# shellcheck disable=SC2046
end_early sample_that_ends_at_each_offset "$samples/stations.nc" $(seq 0 504)
# shellcheck disable=SC2046
end_early counters_that_end_at_each_offset "$samples/counters.nc" $(seq 0 448)
# shellcheck disable=SC2046
end_early many_numbers_that_end_early many.nc $(seq 60 120) $(seq 4070 4120) $(seq 65520 65560) $(seq 131060 131100) $(seq 200000 200080)
# shellcheck disable=SC2046
end_early records_in_turn_that_end_early turns.nc $(seq 100 180) $(seq 4070 4120) $(seq 65520 65560) $(seq 68100 68116)

# Options that bear on values: a width, and coordinate variables among chosen names.
head='netcdf grid {\ndimensions:\n\tx = 3 ;\nvariables:\n\tshort x(x) ;\n\tshort s(x) ;\ndata:\n'
{
    printf 'CDF\001' && zeros 4
    printf '\000\000\000\012\000\000\000\001\000\000\000\001x\000\000\000\000\000\000\003' && zeros 8
    printf '\000\000\000\013\000\000\000\002'
    printf '\000\000\000\001x\000\000\000\000\000\000\001' && zeros 12
    printf '\000\000\000\003\000\000\000\010\000\000\000\164'
    printf '\000\000\000\001s\000\000\000\000\000\000\001' && zeros 12
    printf '\000\000\000\003\000\000\000\010\000\000\000\174'
    printf '\000\001\000\002\000\003\200\001\003\350\116\040\000\102\200\001'
} >grid.nc
options narrow_lines "$head\\n x = 1, 2, 3 ;\\n\\n s = 1000, 20000, \\n    66 ;\\n}\\n" -l 20 grid.nc
options coordinates_among_chosen "$head\\n x = 1, 2, 3 ;\\n}\\n" -c -v s,x grid.nc
options no_coordinates_among_chosen "$head}\\n" -v s -c grid.nc

# Devices that take nothing: only the flush at the end fails, without a line, or a write before it. A file that may not be read.
if has_full_device; then
    run to_full_device "$samples/records.nc"
    verdict failing_flush_of_standard_output 1
    stderr 'ncdump: large.nc: write failed\n'
    run to_full_device large.nc
    verdict full_standard_output_on_the_way 1
fi
run without_stdout "$samples/records.nc"
verdict closed_standard_output 1
run without_stderr missing.nc
verdict closed_standard_error 1
cp "$samples/records.nc" locked.nc
stderr 'ncdump: locked.nc: cannot open\n'
may_not_read 1 locked.nc "$ncdump"

summary
