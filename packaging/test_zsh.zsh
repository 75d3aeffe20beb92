# Types a line with two words to be completed into a zsh with a terminal, and runs what comes of it: its output is in /tmp/completed.
zmodload zsh/zpty
export TERM=dumb
zpty shell zsh -f -i
zpty -w shell "autoload -Uz compinit; compinit -u -D"
zpty -w shell $'hugepool sched\t--se\t7 < /usr/share/doc/hugepool/examples/truncate-against-store.script > /tmp/completed\nexit'
zpty -r shell said '*nothing that it prints*'
print -r -- "$said"
