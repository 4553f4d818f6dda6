#!/usr/bin/env bash
# Packs a release of the programs in bin/, unpacks it, installs it as one does who has no kit, and runs what is installed.
set -u
. "$(dirname "$0")/verdicts.sh"
version=$(cat "$top/VERSION")
release=juniperbrick-$version-linux-x86_64
packed=$top/dist/$release.tar.gz

make -s -C "$top" dist
cp "$packed" "$work/first.tar.gz"
touch "$top"/docs/*
make -s -C "$top" dist
run cmp "$work/first.tar.gz" "$packed"
verdict same_bytes_each_time 0

# A build in another folder gives the same programs, but for the section with the version, which make adds. (The older kit keeps nothing, so
# there it would take as long as the first.)
if rt version | grep -q 13f; then
    mkdir "$work/elsewhere"
    tar -C "$top" -c --exclude=out build.sh kit.sh HANDLES crates.txt crates | tar -x -C "$work/elsewhere"
    run "$work/elsewhere/build.sh"
    : >"$work/got/stderr"
    verdict builds_elsewhere 0
    for name in ncdump ncgen nccheck; do
        objcopy --remove-section .version "$top/bin/$name" "$work/first"
        objcopy --remove-section .version "$work/elsewhere/bin/$name" "$work/second"
        run cmp "$work/first" "$work/second"
        verdict "same_${name}_elsewhere" 0
    done
else
    echo "skipped builds_elsewhere: this kit keeps no proofs"
fi

# (without the times of its files, as on some shares)
tar -xmzf "$packed"
cd "$release" || exit 1
run sha256sum -c --quiet SHA256SUMS
verdict sums 0

links() { grep -oh '](\.\./crates/[^)#]*' docs/*.md | sed 's/^](\.\.\///' | sort -u; }
run bash -c "$(declare -f links); links | xargs ls"
stdout "$(links)\n"
verdict documents_lead_to_definitions 0

# a path that has make and the tools of a system, and neither rt nor a compiler
mkdir "$work/path"
for tool in make sh bash install cat chmod sed head test rm cmp mktemp; do
    ln -s "$(type -P "$tool")" "$work/path/$tool"
done
run env PATH="$work/path" make -s
cp "$samples/stations.cdl" "$work/want/stdout"
stderr 'This folder is a release, which needs no build: make install installs the programs of bin/.\n'
verdict no_build_in_a_release 0
run env PATH="$work/path" make -s install DESTDIR="$work" PREFIX=/usr
verdict installs_without_the_kit 0
run env PATH="$work/path" make -s installcheck DESTDIR="$work" PREFIX=/usr
stdout "$(printf '%s writes what it should\n' "$work"/usr/bin/{ncdump,ncgen,nccheck})\n"
verdict installed_programs_are_checked 0
run env PATH="$work/path" make -s install DESTDIR="$work/one" PREFIX=/usr bindir=/own/bin mandir=/own/man docdir=/own/doc PROGRAMS=nccheck
verdict installs_one_program 0
run find "$work/one" -type f -not -path '*/doc/*' -printf '%P\n'
sort -o "$work/got/stdout" "$work/got/stdout"
stdout "$(printf '%s\n' own/bin/nccheck own/man/man1/nccheck.1 own/man/man5/cdl.5 usr/share/bash-completion/completions/nccheck \
    usr/share/fish/vendor_completions.d/nccheck.fish usr/share/zsh/site-functions/_nccheck)\n"
verdict one_program_in_folders_of_its_own 0
run env PATH="$work/path" make -s install DESTDIR="$work/none" PROGRAMS='nccheck nccopy'
grep -v '^make' "$work/got/stderr" >"$work/said" && mv "$work/said" "$work/got/stderr"
stderr 'PROGRAMS may have only the names ncdump, ncgen and nccheck\n'
verdict other_programs_are_refused 2

for name in ncdump ncgen nccheck; do
    run grep -c "^juniperbrick $version$" <(strings "$work/usr/bin/$name")
    stdout '1\n'
    verdict "version_of_$name" 0
done
run "$work/usr/bin/ncgen" -o "$work/note.nc" samples/note.cdl
verdict installed_ncgen 0
run cmp "$work/note.nc" samples/note.nc
verdict file_of_the_installed_ncgen 0
run "$work/usr/bin/ncdump" "$work/note.nc"
"$ncdump" "$work/note.nc" >"$work/want/stdout"
verdict installed_ncdump 0

run ls "$work/usr/share/man/man1" "$work/usr/share/man/man5"
stdout "$work/usr/share/man/man1:\nnccheck.1\nncdump.1\nncgen.1\n\n$work/usr/share/man/man5:\ncdl.5\n"
verdict installed_pages 0
run cmp samples/note.nc "$work/usr/share/doc/juniperbrick/samples/note.nc"
verdict installed_samples 0
run cmp man/ncgen.1 "$work/usr/share/man/man1/ncgen.1"
verdict pages_of_the_same_names 0

# astray FOLDER: the links of the documents of a folder that lead to nothing
astray() {
    (cd "$1" && grep -o ']([^)#:]*' README.md CHANGELOG.md docs/*.md | while IFS=: read -r document link; do
        [ -e "$(dirname "$document")/${link#](}" ] || echo "$document: $link"
    done)
}
run astray "$work/usr/share/doc/juniperbrick"
verdict installed_links 0

# completed WORDS..: what bash completes the last of these words to, by the installed completion of the first
completed() {
    # shellcheck disable=SC1090
    (. "$work/usr/share/bash-completion/completions/$1" && COMP_WORDS=("$@") COMP_CWORD=$(($# - 1)) &&
        "$(complete -p "$1" | sed 's/.*-F \([^ ]*\).*/\1/')" && printf '%s\n' "${COMPREPLY[@]}")
}
# other_shells_complete NAME PROGRAM WORDS WANTED: the test NAME of what zsh and fish complete the words after a program to, by the installed
# completions. A shell that isn't installed is skipped.
other_shells_complete() {
    if type -P zsh >/dev/null; then
        run timeout 60 zsh -f "$top/tests/completed.zsh" "$work/usr/share/zsh/site-functions" "$2 $3"
        sed -i 's/[ ,]*$//; s/.* //' "$work/got/stdout"
        stdout "$4\n"
        verdict "$1_in_zsh" 0
    else
        echo "skipped $1_in_zsh: zsh isn't installed"
    fi
    if type -P fish >/dev/null; then
        run fish --no-config -c "source '$work/usr/share/fish/vendor_completions.d/$2.fish'; complete -C '$2 $3'"
        sed -i 's/\t.*//' "$work/got/stdout"
        stdout "$4\n"
        verdict "$1_in_fish" 0
    else
        echo "skipped $1_in_fish: fish isn't installed"
    fi
}

cd "$work" && mkdir empty && cd empty && touch a.cdl a.nc
run completed ncgen -k n
stdout 'nc3\nnc6\nnc5\n'
verdict kinds_are_completed 0
run completed ncgen -
stdout '-b\n-o\n-k\n'
verdict options_are_completed 0
run completed ncdump -h a.n
stdout 'a.nc\n'
verdict files_are_completed 0
run completed ncgen -bk nc6
stdout 'nc6\n'
verdict kinds_after_grouped_options 0
run completed nccheck -qs0l n
stdout 'note\n'
verdict levels_after_grouped_options 0
run completed nccheck -i gap,end
stdout 'gap,end-padding\n'
verdict kinds_after_a_comma 0
run completed nccheck -i ''
sed -n 's/^\.BR \(.*\) " (\(error\|violation\|note\))"$/\1/; T; s/\\//g; p' "$top/man/nccheck.1" >"$work/want/stdout"
verdict all_kinds_of_the_page_are_completed 0
other_shells_complete kind ncgen '-bk nc6' nc6
other_shells_complete level_after_grouped_options nccheck '-qs0l n' note
other_shells_complete kind_after_a_comma nccheck '-i gap,end' gap,end-padding
other_shells_complete file ncdump '-h a.n' a.nc
for file in _nccheck nccheck.fish; do
    run grep -ow "$(completed nccheck -i '' | paste -sd '|' | sed 's/|/\\|/g')" "$top/completions/$file"
    completed nccheck -i '' >"$work/want/stdout"
    verdict "all_kinds_in_$file" 0
done
touch ./-k.nc
run completed ncdump -- -k
stdout '-k.nc\n'
verdict files_after_the_end_of_options 0
cd "$work/files/$release" || exit 1

run env PATH="$work/path" make -s install DESTDIR="$work" PREFIX=/usr NAMES=juniper-
verdict installs_under_other_names 0
run env PATH="$work/path" make -s uninstall DESTDIR="$work" PREFIX=/usr NAMES=juniper-
verdict uninstalls_other_names 0
run cmp samples/note.nc "$work/usr/share/doc/juniperbrick/samples/note.nc"
verdict documents_of_the_own_names_stay 0
run env PATH="$work/path" make -s uninstall DESTDIR="$work" PREFIX=/usr
verdict uninstalls 0
run find "$work/usr" -type f
verdict nothing_is_left 0
run env PATH="$work/path" make -s install DESTDIR="$work" PREFIX=/usr NAMES=juniper-
verdict installs_under_other_names_alone 0
run find "$work/usr" -type f -not -path '*/doc/*' -printf '%P\n'
sort -o "$work/got/stdout" "$work/got/stdout"
stdout "$(printf '%s\n' bin/juniper-{nccheck,ncdump,ncgen} share/bash-completion/completions/juniper-{nccheck,ncdump,ncgen} \
    share/fish/vendor_completions.d/juniper-{nccheck,ncdump,ncgen}.fish share/man/man1/juniper-{nccheck,ncdump,ncgen}.1 \
    share/man/man5/juniper-cdl.5 share/zsh/site-functions/_juniper-{nccheck,ncdump,ncgen})\n"
verdict other_names 0
run completed juniper-ncgen -k nc5
stdout 'nc5\n'
verdict other_names_are_completed 0
other_shells_complete other_names juniper-ncgen '-bk nc6' nc6

# bare PAGE..: where a NAME, a SYNOPSIS, a SEE ALSO or a command of pages has a program or a page without the prefix
bare() {
    sed -n '/^\.SH \(NAME\|SYNOPSIS\|SEE ALSO\)/,/^\.SH D/p; /^\$ nc/p' "$@" | grep -E '(^|[^-])(nc(dump|gen|check)|cdl)( |$)'
}
run bare "$work"/usr/share/man/man?/*
verdict installed_names_in_pages 1
run env PATH="$work/path" make -s uninstall DESTDIR="$work" PREFIX=/usr NAMES=juniper-
verdict uninstalls_other_names_alone 0

run env PATH="$work/path" make -s install DESTDIR="$work/a 'b" PREFIX='/c d'
verdict installs_to_a_path_with_blanks 0
run "$work/a 'b/c d/bin/ncdump" samples/stations.nc
cp "$samples/stations.cdl" "$work/want/stdout"
verdict installed_at_a_path_with_blanks 0
run env PATH="$work/path" make -s uninstall DESTDIR="$work/a 'b" PREFIX='/c d'
verdict uninstalls_from_a_path_with_blanks 0
run env PATH="$work/path" make -s install DESTDIR="$work" PREFIX=/usr NAMES='a b'
stderr 'NAMES may have only letters, digits and the characters . _ + -\nmake: *** [Makefile:LINE: names] Error 1\n'
sed -i 's/Makefile:[0-9]*/Makefile:LINE/; s/^make\[[0-9]*\]/make/' "$work/got/stderr"
verdict names_with_blanks 2
run find "$work/usr" "$work/a 'b" -type f
verdict nothing_is_left_or_written 0

run env PATH="$work/path" make -s test
needs='This needs the sources and the Rattle kit: this folder is a release, which has the built programs in bin/.'
stderr "$needs\nmake: *** [Makefile:LINE: kit] Error 1\n"
sed -i 's/Makefile:[0-9]*/Makefile:LINE/; s/^make\[[0-9]*\]/make/' "$work/got/stderr"
verdict no_tests_in_a_release 2

summary
