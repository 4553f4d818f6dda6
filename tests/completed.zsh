# Prints what zsh completes a command line to, by the completions of a folder:  zsh -f tests/completed.zsh FOLDER LINE
zmodload zsh/zpty
zpty shell zsh -f -i
zpty -w shell "fpath=(${(q)1} \$fpath); autoload -Uz compinit && compinit -u -D; show() { print -r -- \"<\$BUFFER>\" }; zle -N show; bindkey '^X' show"
zpty -w -n shell "$2"$'\t\x18'
zpty -r shell printed $'*<[^$]*>*'
zpty -d shell
print -r -- "${${printed##*<}%%>*}"
