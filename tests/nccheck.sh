#!/usr/bin/env bash
# Runs bin/nccheck on files on disk, and compares its standard output, its standard error and its status.
set -u
. "$(dirname "$0")/verdicts.sh"
missing='missing: var[2] "temperature" record 2: found 500 bytes, expected at least 504'
usage='usage: nccheck [-q] [-s] [-j] [-0] [-l level] [-i kinds] [file ...]
       nccheck -p [-0] [-l level] [-i kinds] [file ...]
       nccheck -k [-0] [file ...]
'

cp "$samples/stations.nc" "$samples/records.nc" .
head -c 500 stations.nc >cut.nc

run "$nccheck" stations.nc records.nc
verdict whole_files 0
stdout "cut.nc:500: error: $missing\n"
run "$nccheck" cut.nc
verdict cut_file 1
printf '\211HDF\r\n\032\n\2\10' >hdf5.nc
stdout "hdf5.nc:10: error: hdf5-truncated: data: found 10 bytes, expected at least 48\n"
run "$nccheck" -i hdf5 hdf5.nc
verdict cut_hdf5_file 1
run "$nccheck" -q cut.nc
verdict quiet 1
stdout 'records.nc:4: note: unused-records: numrecs: found 2, expected 0\n'
run "$nccheck" -l note stations.nc records.nc
verdict notes 1
stdout "cut.nc:500: error: $missing\ncut.nc:500: error: $missing\n"
run "$nccheck" -l error cut.nc records.nc cut.nc
verdict files_in_order 1
stdout "cut.nc:500: error: $missing\n"
stderr 'nccheck: none.nc: cannot open: no such file\nnccheck: dir: cannot open: not a regular file\n'
run "$nccheck" none.nc dir cut.nc
verdict trouble_and_a_cut_file 2
stdout '2 checked: 1 with errors, 0 with violations, 0 with notes, 1 with nothing to report; 0 of other formats; 2 not checked\n'
stderr 'nccheck: none.nc: cannot open: no such file\nnccheck: dir: cannot open: not a regular file\n'
run "$nccheck" -q -s none.nc dir cut.nc stations.nc
verdict summary 2
cp cut.nc locked.nc
stderr 'nccheck: locked.nc: cannot open: permission denied\n'
may_not_read 2 locked.nc "$nccheck"
ln -s loop loop
mkfifo pipe
stderr 'nccheck: loop: cannot open\nnccheck: pipe: cannot open: not a regular file\n'
run "$nccheck" loop pipe
verdict link_to_itself_and_a_pipe 2
# Paths on standard input
stdout "cut.nc:500: error: $missing
cut.nc:500: error: $missing
3 checked: 2 with errors, 0 with violations, 0 with notes, 1 with nothing to report; 0 of other formats; 3 not checked\n"
stderr 'nccheck: none.nc: cannot open: no such file\nnccheck: caf\\351.nc: cannot open: the path is not UTF-8\nnccheck: : cannot open: the path is empty\n'
run bash -c 'printf "caf\351.nc\0\0stations.nc\0cut.nc" | "$0" -0 -s cut.nc none.nc' "$nccheck"
verdict list_after_the_words 2
run bash -c '"$0" -0 </dev/null' "$nccheck"
verdict empty_list 0
stderr 'nccheck: -: read failed\n'
run bash -c '"$0" -0 <.' "$nccheck"
verdict list_that_cannot_be_read 2

# Objects, paths and formats
stdout '{"file":"cut.nc","offset":500,"severity":"error","kind":"missing","path":"var[2] \\"temperature\\" record 2","found":"500 bytes","expected":"at least 504"}
{"checked":2,"errors":1,"violations":0,"notes":0,"nothing_to_report":1,"other_formats":0,"not_checked":1}
'
stderr 'nccheck: none.nc: cannot open: no such file\n'
run "$nccheck" -js cut.nc none.nc stations.nc
verdict objects_and_their_summary 2
run bash -c '"$0" -p cut.nc stations.nc cut.nc | tr "\0" :' "$nccheck"
stdout 'cut.nc:cut.nc:'
verdict paths_of_files_with_findings 0
cp "$samples/counters.nc" .
stdout 'nc6\nnc5\nnc6\n'
stderr 'nccheck: loop: cannot open\nnccheck: /dev/null: cannot open: not a regular file\n'
run "$nccheck" -k cut.nc counters.nc loop /dev/null stations.nc
verdict formats 2

# Lines are lines, and short, whatever stands in paths and names
letters() { head -c "$1" /dev/zero | tr '\0' "$2"; }
cp cut.nc $'caf\303\251\n\\\'.nc'
stdout "caf\303\251\\\\n\\\\\\\\'.nc:500: error: $missing\n"
run "$nccheck" $'caf\303\251\n\\\'.nc'
verdict path_with_a_line_end 1
stderr "nccheck: $(letters 64 p)...: cannot open: the path is too long\n"
stdout '1 checked: 0 with errors, 0 with violations, 0 with notes, 1 with nothing to report; 0 of other formats; 1 not checked\n'
run bash -c "$(declare -f letters)"'; { letters 65536 p; printf "\0stations.nc"; } | "$0" -0 -s' "$nccheck"
verdict path_that_is_too_long 2
{
    printf 'CDF\1'
    head -c 20 /dev/zero
    printf '\0\0\0\13\0\0\0\1\0\0\4L'
    letters 1100 n
    printf '\0\0\0\0\0\0\0\14\0\0\0\1\0\0\0\5axyz1\0\0\0\0\0\0\2\0\0\0\1z\0x\0\0\0\0\4\0\0\0\4\0\0\4\240\0\0\0\0'
} >long.nc
stdout "long.nc:32: violation: long-name: var[0] name length: found 1100, expected at most 256
long.nc:1169: violation: padding: var[0] \"$(letters 64 n)\"... att[0] \"axyz1\" padding: found 0x007800, expected 0x000000\n"
run "$nccheck" long.nc
verdict long_name 1

# one_int NAME: makes name.nc, a file of one int of this name, without its value.
one_int() {
    local LC_ALL=C length begin number
    length=${#1} && begin=$((60 + (length + 3) / 4 * 4))
    printf -v number '\\x%02x' $((length >> 8)) $((length & 255)) $((begin >> 8)) $((begin & 255))
    {
        printf 'CDF\1' && zeros 20 && printf '\0\0\0\13\0\0\0\1\0\0' && printf '%b' "${number::8}"
        printf '%s' "$1" && zeros $(((4 - length % 4) % 4 + 15)) && printf '\4\0\0\0\4\0\0' && printf '%b' "${number:8}"
    } >name.nc
}
# name TEST NAME SHOWN LINE..: of a file of one int of this name, the line on its value, which is missing, shows the name so; before it come
# these lines.
name() {
    local size line
    one_int "$2"
    size=$(wc -c <name.nc)
    for line in "${@:4}" "$size: error: missing: var[0] $3: found $size bytes, expected at least $((size + 4))"; do
        printf 'name.nc:%s\n' "$line" >>"$work/want/stdout"
    done
    run "$nccheck" -l note name.nc
    verdict "$1" 1
}
long='32: violation: long-name: var[0] name length: found 257, expected at most 256'
printf -v accents '\303\251%.0s' {1..128}
printf -v octal '\\303\\251%.0s' {1..32}
name name_of_256_bytes "$(letters 256 n)" "\"$(letters 256 n)\""
name name_of_257_bytes "$(letters 257 n)" "\"$(letters 64 n)\"..." "$long"
name name_of_256_bytes_of_utf_8 "$accents" "\"$accents\""
name name_of_257_bytes_of_utf_8 "${accents}n" "\"$octal\"..." "$long"
name name_of_257_bytes_that_is_cut_within_a_character "n$accents" "\"n${octal::252}\"..." "$long"
printf -v other '\351%.0s' {1..257}
printf -v octal '\\351%.0s' {1..256}
name name_of_256_bytes_that_is_not_utf_8 "${other::256}" "\"$octal\"" "36: violation: name-characters: var[0] \"$octal\" name"
name name_of_257_bytes_that_is_not_utf_8 "$other" "\"${octal::256}\"..." "$long" \
    "36: violation: name-characters: var[0] \"${octal::256}\"... name"

stdout "nccheck $(cat "$top/VERSION")\n"
run "$nccheck" -q none.nc -V -h
verdict version_is_that_of_the_file_VERSION 0
run bash -c '"$0" -h | head -n 3' "$nccheck"
stdout "$usage"
verdict help_begins_with_the_usage 0
stderr 'nccheck: -q: cannot open: no such file\n'
run "$nccheck" -- -q
verdict file_that_begins_with_a_dash 2
# (a lone dash is a path)
stderr 'nccheck: -: cannot open: no such file\n'
run "$nccheck" -
verdict dash_alone 2
run "$nccheck" -i missing,gap cut.nc
verdict ignored_kinds 0
while IFS='|' read -r words why; do
    stderr "nccheck: $why\n$usage"
    # shellcheck disable=SC2086
    run "$nccheck" $words
    verdict "misuse${words:+_}${words// /_}" 2
done <<'END'
|no file
-x cut.nc|no option -x
--list cut.nc|no option --list
-i wrong cut.nc|no kind wrong
-0 -0|-0 is given twice
-l bad cut.nc|no level bad
-l|an option has no value
-l note -l error cut.nc|-l is given twice
-p -s cut.nc|-p takes no -q, -s or -j beside it
-k -l note cut.nc|-k takes no option but -0 beside it
END
stderr "nccheck: an argument is not UTF-8: give paths by -0\n$usage"
run "$nccheck" cut.nc $'caf\351.nc'
verdict word_that_is_not_utf_8 2
for word in -V -h; do
    stderr "nccheck: an argument is not UTF-8: give paths by -0\n$usage"
    run "$nccheck" "$word" $'caf\351.nc'
    verdict "word_that_is_not_utf_8_after$word" 2
done
stderr 'nccheck: write failed\n'
run bash -c '"$0" -V >&-' "$nccheck"
verdict version_to_a_closed_standard_output 2
stderr 'nccheck: cut.nc: write failed\n'
run bash -c '"$0" cut.nc >&-' "$nccheck"
verdict closed_standard_output 2
if has_full_device; then
    stderr 'nccheck: cut.nc: write failed\n'
    run bash -c '"$0" cut.nc >/dev/full' "$nccheck"
    verdict full_device 2
    stderr 'nccheck: write failed\n'
    run bash -c '"$0" -q -s cut.nc >/dev/full' "$nccheck"
    verdict summary_on_a_full_device 2
fi

# A file of 4 TiB, of which nothing is read but the header.
cp stations.nc sparse.nc
truncate -s 4T sparse.nc
stdout 'sparse.nc:504: violation: trailing: data: found 4398046511104 bytes, expected 504, or numrecs 549755813828\n'
run bash -c 'ulimit -t 1 && "$0" sparse.nc' "$nccheck"
verdict sparse_file 1

# A thousand files take the memory of one.
mkdir many
for n in {1..1000}; do cp cut.nc "many/$n.nc"; done
run bash -c 'ulimit -v 20000 && "$0" -q many/*.nc' "$nccheck"
verdict many_files 1

# A line doesn't grow with a name: 3,000 attributes of a variable whose name has 50,000 letters, with a line for each, of 200 bytes at most.
{
    printf 'CDF\1' && zeros 20 && printf '\0\0\0\13\0\0\0\1\0\0\303\120' && letters 50000 a
    zeros 4 && printf '\0\0\0\14\0\0\13\270'
    printf '\0\0\1\4%0260d\0\0\0\4\0\0\0\1\0\0\0\0' {1..3000}
    printf '\0\0\0\4\0\0\0\4\0\15\145\354\0\0\0\0'
} >long.nc
run bash -c '"$0" long.nc >long.txt; status=$?; [ "$(wc -l <long.txt)" = 3001 ] && [ "$(wc -c <long.txt)" -lt 600000 ] && exit $status' "$nccheck"
verdict lines_on_attributes_of_a_long_name 1

# A list of ten thousand files too, which is checked as it is read: the first file has its line before the list has ended.
stdout '10000 checked: 10000 with errors, 0 with violations, 0 with notes, 0 with nothing to report; 0 of other formats; 0 not checked\n'
run bash -c 'ulimit -v 20000 && for _ in {1..10}; do printf "%s\0" many/*.nc; done | "$0" -q -s -0' "$nccheck"
verdict long_list 1
stdout "cut.nc:500: error: $missing\n"
run bash -c '{ printf "cut.nc\0"; for _ in {1..50}; do [ -s line ] && exit; sleep 0.1; done; printf "late\0"; } | "$0" -0 | tee line
    exit "${PIPESTATUS[1]}"' "$nccheck"
verdict list_that_goes_on 1

# Each word of a long command line is checked, in its order: 3,000 files, each with another number of records, and so with another line.
mkdir numbered
after=$(tail -c +9 records.nc | od -An -v -tx1 | tr -d '\n')
for n in {1..3000}; do
    printf -v number '\\x%02x' $((n >> 8)) $((n & 255))
    printf '%b' "CDF\\x01\\x00\\x00$number${after// /\\x}" >"numbered/$n.nc"
    echo "numbered/$n.nc:4: note: unused-records: numrecs: found $n, expected 0" >>"$work/want/stdout"
done
run "$nccheck" -l note numbered/{1..3000}.nc
verdict each_word_in_its_order 1

# Lines of processes that share a slow pipe don't mix, also if one writes more than the pipe holds: each line stands whole, 8 times.
for _ in {1..8}; do for n in {1..1000}; do echo "many/$n.nc:500: error: $missing"; done; done | LC_ALL=C sort >"$work/want/stdout"
run bash -c 'for _ in {1..8}; do ls many/*; done | xargs -n 1000 -P 4 "$0" | { sleep 1; LC_ALL=C sort; }' "$nccheck"
verdict lines_of_processes_that_share_a_pipe 0
# The same of paths, each with its NUL: of these, whose 16 bytes end where a buffer of 4,096 is full, a NUL by itself would mix.
mkdir same && cp many/1.nc same/00000001.nc
stdout '8000 same/00000001.nc\n'
run bash -c 'yes same/00000001.nc | head -n 8000 | xargs -n 1000 -P 4 "$0" -p | { sleep 1; tr "\0" "\n" | uniq -c | sed "s/^ *//"; }' "$nccheck"
verdict paths_of_processes_that_share_a_pipe 0

# A file that becomes shorter after it was opened ends where it ends now (early_end.c): what is missing of its header is no zeros. What is
# found counts by the length that it had when it was opened, 504 bytes.
${CC:-cc} -shared -fPIC -o "$work/early_end.so" "$top/tests/early_end.c" || exit 1
while read -r end line; do
    stdout "stations.nc:$line\n"
    run env END="$end" LD_PRELOAD="$work/early_end.so" "$nccheck" stations.nc
    verdict "early_end_in_the_header_at_$end" 1
done <<'END'
0 0: error: header-truncated: magic: found 504, expected 3 bytes
2 0: error: header-truncated: magic: found 504, expected 3 bytes
3 3: error: header-truncated: version: found 501, expected 1 bytes
5 4: error: header-truncated: numrecs: found 500, expected 4 bytes
7 4: error: header-truncated: numrecs: found 500, expected 4 bytes
8 8: error: header-truncated: dims tag: found 496, expected 4 bytes
100 92: error: header-truncated: gatt[0] "title" values: found 412, expected 25 bytes
200 200: error: header-truncated: var[0] "station_name" att[0] name: found 304, expected 9 bytes
END
# No value is read, so an end among them isn't seen.
run env END=500 LD_PRELOAD="$work/early_end.so" "$nccheck" stations.nc
verdict early_end_in_the_values 0

# A file of the system is given back: more files than may be open at a time.
run bash -c 'ulimit -n 16 && "$0" -q many/*.nc' "$nccheck"
verdict more_files_than_may_be_open 1

summary
