# Prints what zsh offers at the end of a command line, by a shell of its own: offers.zsh FOLDER LINE
#
# FOLDER has the file of completions. A call of `compadd` adds the words that zsh offers; here it writes them to a file.
zmodload zsh/zpty
out=$(mktemp)
zpty z zsh -f -i
zpty -w z "OUT=$out; PS1='% '; fpath=(${(q)1} \$fpath); autoload -Uz compinit; compinit -u -D"
zpty -w z 'compadd() { if [[ ${@[1,(i)(-|--)]} == *-(O|A|D)* ]]; then builtin compadd "$@"; return; fi; local -a found; builtin compadd -A found "$@"; print -rl -- $found >> $OUT; }'
zpty -w z 'ended() { _main_complete; print -- "== ended" >> $OUT }; zle -C ended complete-word ended; bindkey "^T" ended'
zpty -w -n z "$2"$'\x14'
for ((k = 0; k < 200; k++)); do grep -q '== ended' $out && break; sleep 0.05; done
grep -v '== ended' $out | grep . | sort -u
zpty -d z
rm $out
