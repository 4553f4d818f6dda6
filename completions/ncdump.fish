# Completes the command line of ncdump in fish: its options, and files.
complete -c ncdump -s h -d 'print only the header'
complete -c ncdump -s c -d 'print the values of coordinate variables'
complete -c ncdump -s v -x -d 'print the values of these variables'
complete -c ncdump -s n -x -d 'set the name of the dataset'
complete -c ncdump -s l -x -d 'set the width of a line'
