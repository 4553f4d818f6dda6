#!/usr/bin/env bash
# Runs the programs under strace on files and texts of some 100,000 bytes, and counts their calls of the system: each reads and writes large
# parts, and nccheck no more of a file than its header and a buffer. Then the system refuses calls, which aren't made again. Without strace
# nothing can be tried, and this script says so.
set -u
. "$(dirname "$0")/verdicts.sh"

if ! strace -o "$work/calls" true 2>"$work/said"; then
    echo "skipped: NO CALL WAS COUNTED, since strace is needed: $(cat "$work/said")"
    exit 0
fi

# calls NAME CALL MOST FILE COMMAND..: the command does what is wanted, and once it has opened the file, it makes at most MOST calls of
# this kind, and one at least.
calls() {
    run strace -qq -e "trace=/^(open|openat|$2)\$" -o "$work/calls" "${@:5}"
    count=$(sed -n "/^open.*\"$4\"/,\$p" "$work/calls" | grep -c "^$2(")
    if [ "$count" -lt 1 ] || [ "$count" -gt "$3" ]; then echo "$count calls of $2, where 1 to $3 are allowed" >>"$work/got/stderr"; fi
    verdict "$1" 0
}

# generated NAME: bin/ncgen makes a file of the text NAME.cdl, and has read and written large parts.
generated() {
    calls "reads_of_text_of_$1" read 4 "$1.cdl" "$ncgen" -o "$1.nc" "$1.cdl"
    calls "writes_of_file_of_$1" write 4 "$1.cdl" "$ncgen" -o "$1.nc" "$1.cdl"
}

# dumped NAME: bin/ncdump dumps the file NAME.nc as the text NAME.cdl, and has read and written large parts.
dumped() {
    cp "$1.cdl" "$work/want/stdout"
    calls "reads_of_file_of_$1" pread64 20 "$1.nc" "$ncdump" "$1.nc"
    cp "$1.cdl" "$work/want/stdout"
    calls "writes_of_dump_of_$1" write 4 "$1.nc" "$ncdump" "$1.nc"
}

# checked NAME MOST BYTES: bin/nccheck finds nothing in the file NAME.nc, and has read it in at most MOST calls, and at most BYTES of it.
checked() {
    calls "reads_of_header_of_$1" pread64 "$2" "$1.nc" "$nccheck" "$1.nc"
    run awk '/^open/ { bytes = 0 } /^pread64/ { bytes += $NF } END { if (bytes > most) print bytes " bytes are read" }' most="$3" \
        "$work/calls"
    verdict "bytes_of_header_of_$1" 0
}

# status that a program ends with after a refused call
trouble=1

# refused NAME CALL FIRST LAST ERROR FILE LINE COMMAND..: the system refuses calls of this kind on the file, whose path is absolute, with this
# error, from number FIRST on. The command says so in this line, and makes no such call after number LAST.
refused() {
    stderr "$7\\n"
    run strace -qq -P "$6" -e "trace=$2" -e "inject=$2:error=$5:when=$3+" -o "$work/calls" "${@:8}"
    : >"$work/got/stdout"
    count=$(grep -c "^$2(" "$work/calls")
    if [ "$count" -lt "$3" ] || [ "$count" -gt "$4" ]; then echo "$count calls of $2, where $3 to $4 are wanted" >>"$work/got/stderr"; fi
    verdict "$1" "$trouble"
}

# tenfold COUNT: rows of ten numbers, as values of a variable.
tenfold() {
    yes '  1, 2, 3, 4, 5, 6, 7, 8, 9, 10,' | head -n $(($1 - 1))
    printf '  1, 2, 3, 4, 5, 6, 7, 8, 9, 10 ;\n'
}

{
    printf 'netcdf numbers {\ndimensions:\n\ty = 3000 ;\n\tx = 10 ;\nvariables:\n\tint v(y, x) ;\ndata:\n\n v =\n'
    tenfold 3000 && echo '}'
} >numbers.cdl
{
    printf 'netcdf records {\ndimensions:\n\tt = UNLIMITED ; // (1500 currently)\n\tx = 10 ;\nvariables:\n\tint v(t, x) ;\n\tint w(t, x) ;\n'
    printf 'data:\n\n v =\n' && tenfold 1500 && printf '\n w =\n' && tenfold 1500 && echo '}'
} >records.cdl
{
    printf 'netcdf characters {\ndimensions:\n\tx = 100000 ;\nvariables:\n\tchar c(x) ;\ndata:\n\n c = "'
    zeros 100000 | tr '\000' a && printf '" ;\n}\n'
} >characters.cdl
{
    printf 'netcdf attribute {\n\n// global attributes:\n\t\t:note = "'
    zeros 100000 | tr '\000' a && printf '" ;\n}\n'
} >attribute.cdl
for name in numbers records characters attribute; do
    generated "$name"
    dumped "$name"
done
for error in EIO EINTR; do
    refused "first_read_of_file_refused_with_$error" pread64 1 1 "$error" "$PWD/numbers.nc" 'ncdump: numbers.nc: read failed' \
        "$ncdump" numbers.nc
    refused "second_read_of_file_refused_with_$error" pread64 2 2 "$error" "$PWD/numbers.nc" 'ncdump: numbers.nc: read failed' \
        "$ncdump" numbers.nc
    refused "first_read_of_text_refused_with_$error" read 1 1 "$error" "$PWD/numbers.cdl" 'ncgen: numbers.cdl: read failed' \
        "$ncgen" numbers.cdl
done
# What is held back is written once more by the flush, and once when the writer goes.
for error in EIO ENOSPC; do
    refused "writes_of_dump_refused_with_$error" write 1 3 "$error" "$work/got/stdout" 'ncdump: numbers.nc: write failed' \
        "$ncdump" numbers.nc
    refused "writes_of_file_refused_with_$error" write 1 3 "$error" "$PWD/made.nc" 'ncgen: made.nc: write failed' \
        "$ncgen" -o made.nc numbers.cdl
done
# The header of `attribute` has 100,000 bytes, and that of `numbers` less than a buffer.
checked attribute 26 106496
checked numbers 1 4096
trouble=2
for error in EIO EINTR; do
    refused "first_read_of_header_refused_with_$error" pread64 1 1 "$error" "$PWD/attribute.nc" 'nccheck: attribute.nc: read failed' \
        "$nccheck" attribute.nc
    refused "third_read_of_header_refused_with_$error" pread64 3 3 "$error" "$PWD/attribute.nc" 'nccheck: attribute.nc: read failed' \
        "$nccheck" attribute.nc
done
summary
