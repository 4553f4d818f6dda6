# Completes the command line of nccheck in fish: its options, levels, kinds (also after a comma), and files.
set -l kinds hdf5 hdf5-truncated gzip not-netcdf empty-file unknown-version header-truncated bad-tag bad-count bad-name bad-type bad-shape \
    two-record-dims too-large bad-offset missing begin-in-header overlap record-place unpadded order after-records \
    large-variable trailing name-characters large-count streaming duplicate-name fill-value not-nfc padding long-name high-rank vsize \
    floating-type unused-records empty-list empty-attribute trailing-nul odd-vsize gap end-padding
complete -c nccheck -s q -d 'print no findings'
complete -c nccheck -s s -d 'count the files in a last line'
complete -c nccheck -s j -d 'print findings as JSON objects'
complete -c nccheck -s p -d 'print the paths of files with findings, each ended by a NUL'
complete -c nccheck -s k -d 'print the format of each file'
complete -c nccheck -s 0 -d 'read paths from standard input, each ended by a NUL'
complete -c nccheck -s l -x -a 'error violation note' -d 'report what is at least as grave'
complete -c nccheck -s i -x -a "(__fish_complete_list , 'printf \"%s\n\" $kinds')" -d 'ignore findings of these kinds'
complete -c nccheck -s V -d 'print the version'
complete -c nccheck -s h -d 'print a help'
