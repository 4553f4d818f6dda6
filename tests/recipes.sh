#!/usr/bin/env bash
# Runs each recipe of the manual pages as it is printed there, with the programs of bin/, and compares what it writes with what is printed
# below it, and what it makes. A recipe is an example that begins with a prompt, or a rule of make.
set -u
. "$(dirname "$0")/verdicts.sh"
pages=("$top"/man/*.[1-8])

# unpaged: a part of a page as it is printed
unpaged() {
    sed "s/\\\\-/-/g; s/\\\\(aq/'/g; s/^\\\\&//; s/\\\\e/\\\\/g"
}

# example WORDS: the examples of the pages that have these words
example() {
    cat "${pages[@]}" | unpaged | awk -v words="$1" '
        /^\.EX$/ { text = ""; next }
        /^\.EE$/ { if (index(text, words)) printf "%s", text; next }
        { text = text $0 "\n" }'
}

# commands, printed: the commands of an example, and what is printed below them
commands() {
    awk '/^[$>] / || more { sub(/^[$>] /, ""); print; more = /\\$/ }'
}
printed() {
    awk '/^[$>] / || more { more = /\\$/; next } { print }'
}

# recipe WORDS: runs the example that has these words, with both streams in one, and wants what is printed below its commands.
recipe() {
    example "$1" >"$work/example"
    cat "$work/example" >>"$work/run"
    printed <"$work/example" >>"$work/want/stdout"
    run bash -c "exec 2>&1; $(commands <"$work/example")"
}

# rule WORDS TARGET: makes the target by the rule of make that has these words.
rule() {
    example "$1" | tee -a "$work/run" >Makefile
    run make -s "$2"
}

mkdir "$work/tools"
printf '#!/bin/sh\nsed -i s/31/32/ "$1"\n' >"$work/tools/vi" && chmod +x "$work/tools/vi"
PATH=$work/tools:$top/bin:$PATH
ln -s "$samples" samples
printf 'netcdf tides {\ndimensions:\n\tx = 3 ;\nvariables:\n\tshort cm(x) ;\ndata:\n\n cm = 12, 31, 47 ;\n}\n' >tides.cdl
cp tides.cdl text.cdl
ncgen -k nc6 -o tides.nc tides.cdl

# ncgen(1)
recipe 'ncgen -k nc6 -o stations.nc'
verdict file_of_a_text 0
run cmp stations.nc samples/stations.nc
verdict file_of_a_text_is_right 0
rm stations.nc
recipe 'ncgen -b'
verdict file_named_after_the_text 0
run ncdump stations.nc
cp samples/stations.cdl "$work/want/stdout"
verdict file_named_after_the_text_is_right 0
recipe 'ncgen -o note.nc'
verdict file_and_its_text 0
printf 'netcdf t {\nvariables:\n short cm ;\ndata:\n cm = 40000 ;\n}\n' >range.cdl
recipe 'ncgen range.cdl'
verdict check_of_a_text 1
stdout '- cm = 12, 31, 47 ;\n+ cm = 12, 32, 47 ;\n'
recipe 'vi edited.cdl'
sed -i '/^[-+] /!d' "$work/got/stdout"
verdict change_of_a_file 0
run ncdump tides.nc
cp edited.cdl "$work/want/stdout"
verdict changed_file 0
recipe 'new.tmp'
verdict file_under_another_name_first 0
rm tides.nc
rule '%.nc: %.cdl' tides.nc
verdict rule_for_a_file 0
run ncdump tides.nc
cp tides.cdl "$work/want/stdout"
verdict file_of_the_rule 0
cp tides.cdl large.cdl
rule '%.nc: %.cdl' large.nc
verdict rule_for_a_file_of_another_kind 0
run test "$(head -c 4 large.nc | tail -c 1 | od -An -tu1)" -eq 5
verdict kind_of_the_rule 0
rm large.nc large.cdl
echo before >all
recipe '>>all'
verdict file_after_others 0
run cmp all <(echo before && echo first && ncgen -o /dev/stdout tides.cdl | cat)
verdict nothing_before_the_file_is_lost 0

# fault_at LINE EDIT MESSAGE: in a list of 10,000 lines, of which every other one is a comment, the fault that the edit makes is found there
fault_at() {
    {
        printf 'netcdf tides {\ndimensions: t = UNLIMITED ;\nvariables: short cm(t) ;\ndata:\n cm =\n'
        yes $'  12, 31, 47, // metres\n  // and more' | head -n 9999
        printf '  12, 31, 47 ;\n}\n'
    } | sed "$1$2" >tides.cdl
    stderr "ncgen: tides.cdl: line 5: $3\n"
    run ncgen tides.cdl
    verdict "fault_at_line_$1_is_that_of_its_statement" 1
    (echo "$1" && sed -n "$1p" tides.cdl) >"$work/want/stdout"
    recipe 'wc -l'
    verdict "fault_at_line_$1_is_found" 0
}
fault_at 6 's/31/40000/' 'number out of range'
fault_at 8 's/12/0.01/' 'bad number'
fault_at 4004 's/31,/31/' syntax
fault_at 7008 's/47/40000/' 'number out of range'
fault_at 8002 's/47,/47/' syntax
fault_at 9010 's/31/"31"/' 'wrong kind of value'
fault_at 10005 's/ ;/, ;/' syntax
mv text.cdl tides.cdl

# ncdump(1)
recipe 'ncdump -h samples/records.nc'
verdict header 0
sed '/^ station_name =/,/^$/d' samples/stations.cdl >"$work/want/stdout"
recipe 'ncdump -v time,temperature'
verdict chosen_variables 0
sed '1s/stations/weather/' samples/stations.cdl >"$work/want/stdout"
recipe 'ncdump -n weather'
verdict other_name 0
cp tides.nc old.nc
ncgen -o new.nc edited.cdl
stdout '- cm = 12, 31, 47 ;\n+ cm = 12, 32, 47 ;\n'
recipe 'diff -u old.cdl new.cdl'
sed -i '/^[-+] /!d' "$work/got/stdout"
verdict change_between_two_files 1
mkdir each && cp samples/stations.nc tides.nc each && cd each
recipe 'for file in'
verdict each_file_of_a_directory 0
run cmp stations.cdl ../samples/stations.cdl
verdict text_beside_its_file 0
cd ..
recipe 'ncdump samples/stations.nc | ncgen'
verdict copy 0
run cmp copy.nc samples/stations.nc
verdict copy_is_right 0
for kind in nc3 nc6 nc5; do
    ncgen -k $kind -o tides.nc tides.cdl
    recipe 'kind=nc$(head'
    verdict "copy_of_$kind" 0
    run cmp copy.nc tides.nc
    verdict "copy_of_${kind}_keeps_its_kind" 0
    rule 'copy-of-%' copy-of-tides.nc
    verdict "copy_of_${kind}_by_a_rule" 0
    run cmp copy-of-tides.nc tides.nc
    verdict "copy_of_${kind}_by_a_rule_keeps_its_kind" 0
    rm copy-of-tides.nc
done
stdout '   5\n'
recipe 'od -An'
verdict number_of_the_version 0
cp tides.nc FILE
cp tides.cdl "$work/want/stdout"
recipe '/dev/stdin'
verdict file_on_standard_input 0

# VERSION of two pages
for name in ncdump ncgen; do
    recipe "command -v $name"
    verdict "version_in_$name" 0
done

# The recipe for git: changes of files are shown as changes of their text and of a sum of their bytes, also of a file that is cut short, of
# one with a floating type, which can't be printed, and of two whose text stays: one of another kind, and one with bytes after its values.
files_before() {
    cp "$samples/note.nc" .
    head -c 500 "$samples/stations.nc" >cut.nc
    { printf 'CDF\001' && zeros 12 && printf '\000\000\000\014\000\000\000\001\000\000\000\001a\000\000\000' &&
        printf '\000\000\000\005\000\000\000\001' && zeros 12; } >float.nc
    cp "$samples/smallest.nc" kind.nc
    cp "$samples/smallest.nc" longer.nc
    git add . && git -c user.name=test -c user.email=test@example.org commit -qm first
}
changes() {
    for file in note cut float; do
        cp "$samples/smallest.nc" $file.nc
    done
    printf '\002' | dd of=kind.nc bs=1 seek=3 conv=notrunc status=none
    zeros 4 >>longer.nc
    git --no-pager diff --no-color | grep -- '-28\|:note\|^-[0-9]\|^+[0-9].* 36'
}
if command -v git >/dev/null; then
    mkdir repository && cd repository && git init -q .
    recipe 'gitattributes'
    verdict setting_of_git 0
    files_before
    was=$(cksum <kind.nc)
    stdout "-  -28, _\n-$(cksum <cut.nc)\n-$(cksum <float.nc)\n-$was\n-$was\n+$(cat longer.nc <(zeros 4) | cksum)\n-\t\t:note = \"a\\\\n\",\n-$(cksum <note.nc)\n"
    run changes
    verdict changes_in_git 0
    cd ..
else
    example 'gitattributes' >>"$work/run"
    echo 'skipped: git is not installed'
fi

# nccheck(1)
mkdir archive && cd archive
cp "$samples/stations.nc" f.nc
recipe 'nccheck -q -l error f.nc'
verdict whole_file 0
head -c 500 "$samples/stations.nc" >f.nc
stdout 'reject\n'
recipe 'nccheck -q -l error f.nc'
verdict cut_file 0
stdout 'look\n'
recipe 'nccheck -q f.nc'
verdict cut_file_to_look_at 0
cp "$samples/stations.nc" whole.nc
found='./f.nc:500: error: missing: var[2] "temperature" record 2: found 500 bytes, expected at least 504\n'
counted='2 checked: 1 with errors, 0 with violations, 0 with notes, 1 with nothing to report; 0 of other formats; 0 not checked\n'
recipe 'nccheck -0 -s >report;'
verdict archive 1
for processes in one four; do
    run cat report trouble
    stdout "$found$counted"
    verdict "archive_has_a_cut_file_for_${processes}_at_a_time" 0
    rm report trouble
    recipe 'xargs'
    verdict "archive_by_four_processes_after_$processes" 123
done
stdout './f.nc\n'
recipe '! -exec'
verdict files_with_an_error 0
if type -P jq >/dev/null; then
    stdout './f.nc\0'
    recipe 'jq -j'
    verdict files_with_a_finding_of_one_kind 0
else
    example 'jq -j' >>"$work/run"
fi
head -c 500 "$samples/stations.nc" >g.nc
mkdir dir.nc
# The first night, then one with a file more, two that could not check a file, and one without files, which keeps what was reported before.
rm dir.nc -r
mv g.nc away
stdout "$found"
recipe 'comm -13'
verdict all_is_new_on_the_first_night 0
mv away g.nc
stdout "${found//f.nc/g.nc}"
recipe 'comm -13'
verdict new_since_yesterday 0
run cat yesterday
stdout "$found${found//f.nc/g.nc}"
verdict what_is_yesterday_tomorrow 0
mv g.nc away && mkdir g.nc
trouble='nccheck: ./g.nc: cannot open: not a regular file\n'
stdout "$trouble"
recipe 'comm -13'
verdict trouble_of_a_night_that_could_not_check_a_file 0
recipe 'comm -13'
verdict nothing_is_new_the_night_after 0
mkdir none && mv ./*.nc none && mv none ..
stdout 'not whole\n'
recipe 'comm -13'
verdict night_without_files 0
run cat yesterday
stdout "$found$trouble"
verdict night_without_files_keeps_the_report 0
mv ../none/* . && rmdir ../none g.nc && mv away g.nc
stdout "${found//f.nc/g.nc}"
recipe 'comm -13'
verdict new_since_the_file_is_back 0
rm report trouble
recipe 'xargs'
verdict two_runs_of_four_files 123
stdout '3 checked, 2 with errors, 0 not\n'
recipe 'NF - 2'
verdict sum_of_runs 0
if type -P jq >/dev/null; then
    recipe 'uniq -c'
    stdout '      2 missing\n'
    verdict findings_of_each_kind 0
else
    example 'uniq -c' >>"$work/run"
    echo 'skipped: jq is not installed'
fi
stdout '2 of 3 files are damaged, 0 are not checked\n'
recipe 'json.loads'
verdict findings_in_python 0
recipe 'damaged.tar'
verdict list_of_damaged_files 0
run bash -c 'tar -tf damaged.tar | sort'
stdout './f.nc\n./g.nc\n'
verdict damaged_files_are_in_the_list 0
stdout '2\n'
recipe 'tr -dc'
verdict number_of_damaged_files 0
# Records that the header doesn't count, and filling
cp "$samples/stations.nc" f.nc
printf '\0\0\0\2' | dd of=f.nc bs=1 seek=4 conv=notrunc status=none
run nccheck f.nc
stdout 'f.nc:496: violation: trailing: data: found 504 bytes, expected 496, or numrecs 3\n'
verdict records_that_are_not_counted 1
recipe 'seek=4'
verdict records_are_counted 0
run cmp g.nc "$samples/stations.nc"
verdict file_is_as_before 0
zeros 100 >>f.nc
recipe 'tail -c +505'
stdout '0\n'
verdict filling 0
cd ..

# Each example that begins with a prompt or as a rule of make has been run.
first_lines() {
    cat "${pages[@]}" | unpaged | awk '/^\.EX$/ { getline; if (/^\$ |: %|:$/) print }'
}
run test "$(first_lines | wc -l)" -ge 20
verdict recipes_are_found 0
run grep -vxFf "$work/run" <(first_lines)
verdict all_recipes_are_run 1

summary
