# shellcheck shell=bash disable=SC2154
# What tests/terminal and soak/terminal share: a shell in a real terminal, which tmux gives, whose folder is $work, and keys and
# looks at its screen. To be sourced by bash, with $name, the script's name, and $top, the repository.

for tool in tmux pgrep; do
    command -v "$tool" >/dev/null || { echo "there is no $tool"; exit 77; }
done
work=$(mktemp -d)
session=p11-$$
# Packs that are kept of a dialogue which is cut off go there, and not into the user's folder.
export XDG_STATE_HOME=$work/state

say() { echo "$name: $1"; }
fail() {
    say "WRONG: $1"
    show >&2
    exit 1
}
keys() { tmux send-keys -t "$session" "$@"; }
text() { tmux send-keys -t "$session" -l "$1"; }
line() { text "$1" && keys Enter; }
show() { tmux capture-pane -p -t "$session" | sed -e 's/ *$//' | sed -e '/^$/d'; }

# On how many lines of the screen, and of those that went out at its top, a text stands.
count() { tmux capture-pane -p -S - -t "$session" | grep -cF -- "$1" || true; }

# Waits until a command ends well, for so many tenths of a second at most.
wait_until() {
    for _ in $(seq 1 "$1"); do
        if "${@:2}"; then return 0; fi
        sleep 0.1
    done
    return 1
}

# Tenths of a second in which the screen shows what is waited for.
PATIENCE=600

shows() { show | grep -qF -- "$1"; }
shows_more() { [ "$(count "$1")" -gt "$2" ]; }

# Waits until the screen shows a text. It may have stood there before: behind `start` and `type_anew` none has.
wait_for() { wait_until "$PATIENCE" shows "$1" || fail "the screen doesn't show: $1"; }

# Does something, and waits until a text stands on one more line than before: one that stood there doesn't count.
for_another() {
    local text=$1 before
    before=$(count "$text")
    shift
    "$@"
    wait_until "$PATIENCE" shows_more "$text" "$before" || fail "the screen doesn't show once more: $text"
}

# Ends the session that is left, and what was made.
clean() {
    tmux kill-session -t "$session" 2>/dev/null || true
    rm -rf "$work"
}

# Types a line to the shell, on a screen that has nothing but its prompt. The line clears the screen once more, of itself.
has_prompt_alone() { [ "$(show)" = "host>" ]; }
type_anew() {
    line clear
    wait_until "$PATIENCE" has_prompt_alone || fail "the shell doesn't clear the screen"
    line "clear; $1"
}

# Whether the host's terminal is set as it was.
is_restored() {
    keys C-u
    type_anew "stty -a | grep -v rows >after; echo looked''-$1"
    wait_for "looked-$1"
    cmp -s "$work/before" "$work/after" || fail "the host's terminal isn't as before, after $1"
    say "$1: the host's terminal is as before"
}

# Sits down at the machine, in a terminal that is cleared first.
start() { type_anew "'$top/terminal' $1"; }

# Leaves: by a second quit where the first one tells of a pack that no file has.
left_or_asked() { show | grep -qE '^host>|A second quit leaves'; }
leave() {
    line quit
    wait_until "$PATIENCE" left_or_asked || fail "quit isn't answered"
    if show | grep -q '^host>'; then return 0; fi
    line quit
    wait_for "host>"
}

# The processes of the launcher, and of the program that it runs.
launcher_pid() { pgrep -P "$(tmux display-message -p -t "$session" '#{pane_pid}')" -f terminal | head -1; }
program_pid() { pgrep -P "$(launcher_pid)" | head -1; }

trap clean EXIT
"$top/build" p11_terminal >/dev/null || exit 4
tmux new-session -d -s "$session" -x 100 -y 40 -c "$work" "XDG_STATE_HOME='$XDG_STATE_HOME' exec bash --norc --noprofile"
line "PS1='host> '"
line "stty -a | grep -v rows >before; echo looked''-before"
wait_for "looked-before"
