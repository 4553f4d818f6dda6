# Completes the command line of ncgen in fish: its options, the kinds of -k, and files.
complete -c ncgen -s b -d 'make a file named as the text'
complete -c ncgen -s o -r -F -d 'make this file'
complete -c ncgen -s k -x -a 'classic nc3 nc6 nc5' -d 'set the kind of the file'
