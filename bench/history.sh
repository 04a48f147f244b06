#!/bin/sh
# history.sh: tests the debugger on a terminal with `rlwrap`. Lines can be recalled and edited, also in the next session, and
# Ctrl-C ends a run but not the session. It uses tmux and a home directory of its own. Requires tmux and rlwrap; takes some
# seconds. Run manually; not part of the gate. The variable PMACH can name another script than the `pmach` of this clone.
set -eu
here=$(dirname "$(readlink -f "$0")")
pmach=$(readlink -f "${PMACH:-$here/../pmach}")
made=$(mktemp -d)
server=pmach-history-$$
trap 'tmux -L "$server" kill-server 2>/dev/null || :; rm -rf "$made"' EXIT
passed=0 failed=0

keys() {
    tmux -L "$server" send-keys -t session "$@"
}

# What the terminal shows, without empty lines.
shown() {
    tmux -L "$server" capture-pane -p -t session | grep -v '^ *$' || :
}

# The last lines on the terminal become these within ten seconds.
shows() {
    name=$1 wanted=$2 count=0
    until [ "$(shown | tail -n "$(printf '%s\n' "$wanted" | wc -l)" | sed 's/ *$//')" = "$wanted" ]; do
        count=$((count + 1))
        if [ "$count" = 100 ]; then
            failed=$((failed + 1))
            echo "  FAILED: $name: wanted" && printf '%s\n' "$wanted" && echo "  and the terminal shows" && shown
            return
        fi
        sleep 0.1
    done
    passed=$((passed + 1)) && echo "  passed: $name"
}

begin() {
    HOME=$made tmux -L "$server" -f /dev/null new-session -d -s session -x 100 -y 40 \
        "HOME=$made '$pmach' debug --d4 '$made/kept.img' $1; echo \"status \$?\"; sleep 60"
}

"$here/../examples/disk.sh" "$made/kept.img" >/dev/null
printf '.SEG 1 LOOP\n.PROC 1 0 0 0\nhere: UJP ^0\n.EXIT\nRBP 0\n.JUMP here\n.END\n' | "$pmach" asm >"$made/loop"
"$pmach" files --image "$made/kept.img" put LOOP code <"$made/loop"

begin HANOI
shows 'it prompts' '>'
keys 'go 1' Enter
shows 'a line is answered' "$(printf '> go 1\nlimit 1\n>')"
keys Up
shows 'Up brings it back' '> go 1'
keys BSpace 3 Enter
shows 'it is edited at its end' "$(printf '> go 3\nlimit 3\n>')"
keys 'eek 2000 2' C-a p Enter
shows 'and at its beginning' "$(printf '> peek 2000 2\n 2000      0     0\n>')"
keys Up Up Up Enter
shows 'the third last line' "$(printf '> go 1\nlimit 1\n>')"
keys quit Enter
shows 'quit ends the session' 'status 0'
tmux -L "$server" kill-server
server=$server-next

begin LOOP
shows 'the next session' '>'
keys Up Up
shows 'has the lines of the one before' '> go 1'
keys C-u 'go 4000000000' Enter
sleep 1
keys C-c
sleep 1
keys regs Enter
case $(shown) in
    *'limit '*'IPC '*) passed=$((passed + 1)) && echo '  passed: Ctrl-C ends the run and not the session' ;;
    *) failed=$((failed + 1)) && echo '  FAILED: Ctrl-C ends the run and not the session:' && shown ;;
esac
made_steps=$(shown | sed -n 's/^limit \([0-9]*\) *$/\1/p')
keys 'on 5' Enter
shows 'on goes on, of the same run' "$(printf '> on 5\nlimit %d\n>' $((made_steps + 5)))"
keys C-d
shows 'Ctrl-D ends the session' 'status 0'
echo "$passed passed, $failed failed"
[ "$failed" = 0 ]
