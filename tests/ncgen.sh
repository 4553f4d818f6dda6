#!/usr/bin/env bash
# Runs bin/ncgen on texts on disk and on standard input, and compares the files that it makes, its standard error and its status.
set -u
. "$(dirname "$0")/verdicts.sh"

# cdl TEXT FILE: writes the text, with printf's escapes, to a file.
cdl() {
    printf '%b' "$1" >"$2"
}

# holds NAME FILE BYTES: the last run succeeded without a word, and the file has these bytes, in hexadecimal digits.
holds() {
    verdict "$1" 0
    printf '%s\n' "$3" | tr -d ' \n' >"$work/want/file"
    od -An -v -tx1 "$2" | tr -d ' \n' >"$work/got/file"
    verdict "bytes_of_$1" 0
    rm "$work/want/file" "$work/got/file"
}

# fault NAME FILE TEXT WORD..: the program with these words and the file ends with one line on standard error, and makes nothing.
fault() {
    name=$1 file=$2
    stderr "ncgen: $2: $3\\n"
    shift 3
    rm -f made.nc
    run "$ncgen" -o made.nc "$@" "$file"
    verdict "$name" 1
    run test ! -e made.nc
    verdict "${name}_makes_nothing" 0
}

short='netcdf t {\ndimensions:\n x = 3 ;\nvariables:\n short s(x) ;\ndata:\n s = 1, _, 3 ;\n}\n'
classic='43444601000000000000000a00000001000000017800000000000003
    00000000000000000000000b0000000100000001730000000000000100000000000000000000000000000003000000080000005000018001 00038001'
offsets='43444602000000000000000a00000001000000017800000000000003
    00000000000000000000000b00000001000000017300000000000001000000000000000000000000000000030000000800000000000000540001800100038001'
data='43444605000000000000000000 00000a0000000000000001000000000000000178000000000000000000000300000000
    00000000000000000000000b000000000000000100000000000000017300000000000000000000010000000000000000000000000000000000000000
    000000030000000000000008000000000000008000018001 00038001'
cdl "$short" short.cdl

# What is written where.
run "$ncgen" short.cdl
verdict text_without_an_output 0
run test ! -e short.nc
verdict no_output_was_asked_for 0
run "$ncgen" -b short.cdl
holds output_named_after_the_text short.nc "$classic"
cp short.cdl dir/a.b.cdl
run "$ncgen" -b dir/a.b.cdl
holds output_in_the_current_folder a.b.nc "$classic"
run "$ncgen" -o made.nc short.cdl
holds named_output made.nc "$classic"
run "$ncgen" -b -o dir/made.nc short.cdl
holds named_output_before_the_stem dir/made.nc "$classic"
run "$ncgen" -o in.nc <short.cdl
holds text_on_standard_input in.nc "$classic"
run "$ncgen" <short.cdl
verdict text_on_standard_input_without_an_output 0
for kind in classic nc3; do
    run "$ncgen" -k "$kind" -o kind.nc short.cdl
    holds "kind_$kind" kind.nc "$classic"
done
for kind in '64-bit offset' nc6; do
    run "$ncgen" -k "$kind" -o kind.nc short.cdl
    holds "kind_$(printf '%s' "$kind" | tr ' ' '_')" kind.nc "$offsets"
done
for kind in '64-bit data' nc5; do
    run "$ncgen" -k "$kind" -o kind.nc short.cdl
    holds "kind_$(printf '%s' "$kind" | tr ' ' '_')" kind.nc "$data"
done
cp short.cdl same
run "$ncgen" -o same same
holds output_at_the_path_of_the_text same "$classic"

# The samples: each text gives the file beside it, whose dump is the text.
for sample in stations:nc6 counters:nc5; do
    run "$ncgen" -k "${sample#*:}" -o made.nc "$samples/${sample%:*}.cdl"
    verdict "sample_${sample%:*}" 0
    run cmp made.nc "$samples/${sample%:*}.nc"
    verdict "sample_${sample%:*}_is_the_file_beside_it" 0
done

# Faults of a text, and what they leave.
cdl 'netcdf t {\ndimensions: x = 3 ;\nvariables: short s(x) ;\ndata:\n s = 1.5 ;\n}\n' number.cdl
fault bad_number number.cdl 'line 5: bad number'
cdl 'netcdf t {\ndimensions: x = 3 ;\nvariables: short s(x) ;\ndata:\n s = 40000 ;\n}\n' range.cdl
fault number_out_of_range range.cdl 'line 5: number out of range'
cdl 'netcdf t {\ndimensions: x = 3 ;\nvariables: short s(x) ;\ndata:\n s = 1, 2, 3, 4 ;\n}\n' many.cdl
fault too_many_values many.cdl 'line 5: too many values'
cdl 'netcdf t {\ndimensions: x = 0 ;\ndata: q = 1 ;\n}\n' first.cdl
fault first_fault first.cdl 'line 2: zero dimension'
: >empty.cdl
fault empty_text empty.cdl 'line 1: syntax'
cdl 'netcdf t {\nvariables: ubyte b ;\n}\n' ubyte.cdl
fault type_of_another_version ubyte.cdl 'line 2: unknown type'
run "$ncgen" -k nc5 ubyte.cdl
verdict type_of_its_version 0
cdl 'netcdf t {\ndimensions: x = 2147483647 ;\nvariables: byte a(x), b(x) ;\n}\n' wide.cdl
fault offset_too_large wide.cdl 'offset too large'
run "$ncgen" -k nc6 wide.cdl
verdict offset_of_64_bits 0
stderr 'ncgen: -: line 5: bad number\n'
run "$ncgen" <number.cdl
verdict fault_of_standard_input 1
echo old >old.nc
stderr 'ncgen: number.cdl: line 5: bad number\n'
run "$ncgen" -o old.nc number.cdl
verdict refused_text_with_an_old_output 1
stdout 'old\n'
run cat old.nc
verdict old_output_stays 0
cp number.cdl own
stderr 'ncgen: own: line 5: bad number\n'
run "$ncgen" -o own own
verdict refused_text_at_the_path_of_its_output 1
run cmp own number.cdl
verdict refused_text_stays 0

# Texts and outputs that can't be opened, and devices that take nothing.
fault missing_text missing.cdl 'cannot open'
fault folder_as_text dir 'cannot open'
stderr 'ncgen: missing/made.nc: cannot open\n'
run "$ncgen" -o missing/made.nc short.cdl
verdict output_in_no_folder 1
stderr 'ncgen: dir: cannot open\n'
run "$ncgen" -o dir short.cdl
verdict folder_as_output 1
if has_full_device; then
    stderr 'ncgen: /dev/full: write failed\n'
    run "$ncgen" -o /dev/full short.cdl
    verdict full_device 1
fi
run "$ncgen" -o /dev/null short.cdl
verdict device_that_takes_all 0

# The words.
usage='usage: ncgen [-b] [-o file] [-k kind] [file]\n'
for words in '-b' '-b -b short.cdl' '-o' '-o a -o b short.cdl' '-k' '-k nc4 short.cdl' '-k nc3 -k nc3 short.cdl' '-k NC3 short.cdl' \
    'short.cdl short.cdl' '-h' '--help' '--version' '-V' '-c short.cdl' '-x short.cdl' '-b -o'; do
    stderr "$usage"
    # The words are meant to be split.
    # shellcheck disable=SC2086
    run "$ncgen" $words </dev/null
    verdict "usage_of_$(printf '%s' "$words" | tr ' ' '_')" 1
done
good=(-b -o words.nc -k nc3 -- short.cdl)
run "$ncgen" "${good[@]}"
verdict all_options 0
for count in $(seq 30); do
    stderr "$usage"
    # shellcheck disable=SC2046
    run "$ncgen" "${good[@]}" $(yes short.cdl | head -n "$count")
    verdict "usage_of_${count}_words_more" 1
done
stderr "$usage"
run "$ncgen" "$(printf 'a\377.cdl')"
verdict word_that_is_not_utf_8 1

# in_little_memory COMMAND..: runs the command with 16 MiB of memory.
in_little_memory() (
    ulimit -v 16384
    exec "$@"
)

# in_little_time COMMAND..: runs the command with 20 seconds of processor time.
in_little_time() (
    ulimit -t 20
    exec "$@"
)

# Records are written without a look at the variables that have none.
{
    printf 'netcdf t {\ndimensions: t = UNLIMITED ;\nvariables:\n'
    seq -f 'int r%.0f(t) ;' 300
    seq -f 'byte v%.0f ;' 400000
    printf 'data: r1 = 1'
    yes ', 1' | head -n 49999 | tr -d '\n'
    printf ' ;\n}\n'
} >beside.cdl
run in_little_time "$ncgen" -o /dev/null beside.cdl
verdict records_beside_many_variables 0

# Values that a text doesn't list are written as fill values, and do not allocate.
cdl 'netcdf t {\ndimensions: x = 4294967292 ;\nvariables: byte b(x) ;\n}\n' skeleton.cdl
run in_little_memory "$ncgen" -k nc5 -o /dev/null skeleton.cdl
verdict skeleton_of_four_gib 0

# Rows stand in memory as they are listed, and are asked whether they are too large before they are filled up.
# in_memory_of_rows COMMAND..: runs the command with 64 MiB of memory and a second of processor time.
in_memory_of_rows() (
    ulimit -v 65536 -t 1
    exec "$@"
)
# in_memory_of_many_rows COMMAND..: runs the command with 32 MiB of memory and a minute of processor time.
in_memory_of_many_rows() (
    ulimit -v 32768 -t 60
    exec "$@"
)
# long_rows NAME KIND LENGTH FIRST: a variable of two strings, whose rows have that length, and which is too large.
long_rows() {
    cdl "netcdf t {\ndimensions: x = $3, t = UNLIMITED ;\nvariables: char c($4, x) ;\ndata: c = \"a\",\n\"b\" ;\n}\n" rows.cdl
    stderr 'ncgen: rows.cdl: line 6: too large\n'
    run in_memory_of_rows "$ncgen" -k "$2" -o rows.nc rows.cdl
    verdict "$1" 1
    nothing
}
long_rows long_rows nc3 2147483647 x
long_rows longest_rows nc5 9223372036854775807 x
long_rows longest_rows_of_records nc5 9223372036854775807 t
cdl 'netcdf t {\ndimensions: x = 2, y = 100000000 ;\nvariables: char c(x, y) ;\ndata: c = "a", "b" ;\n}\n' rows.cdl
run in_little_memory "$ncgen" -o /dev/null rows.cdl
verdict two_strings_of_200_megabytes 0
{
    printf 'netcdf t {\ndimensions: x = 100000 ;\nvariables: char c(x, x) ;\ndata: c =\n'
    yes '"a",' | head -n 99999
    printf '"a" ;\n}\n'
} >rows.cdl
run in_memory_of_many_rows "$ncgen" -k nc5 -o /dev/null rows.cdl
verdict short_strings_of_ten_gigabytes 0
cdl 'netcdf t {\n}\n' locked.cdl
stderr 'ncgen: locked.cdl: cannot open\n'
may_not_read 1 locked.cdl "$ncgen" -o locked.nc

summary
