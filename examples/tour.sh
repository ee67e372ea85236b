#!/bin/sh
# Five crashes, one after another: runs a script of this folder each and says what to look at. From anywhere: examples/tour.sh
# It takes the kit's `rt`, which builds the program unproved each time, a minute of one processor. Where REDOLAB names a
# program, such as crates/redolab/out/redolab that `rt run` leaves, it takes that.
set -eu
examples=$(cd "$(dirname "$0")" && pwd)
temporary=$(mktemp -d)
trap 'rm -rf "$temporary"' EXIT
trap 'exit 1' HUP INT TERM

redolab() {
    if [ -n "${REDOLAB:-}" ]; then
        "$REDOLAB" "$@"
    else
        cd "$examples/../crates/redolab"
        rt try --seconds 600 -- "$@" 2>"$temporary/errors" || { cat "$temporary/errors" >&2; return 1; }
    fi
}

# prints a script's name, what it shows, the words, the last lines that the program prints, and what to look at
stop() {
    name=$1 times=$2 lines=$3 shows=$4 look=$5
    shift 5
    printf '\n== %s: %s\n\n$ redolab %s\n' "$name" "$shows" "$*"
    for _ in $(seq "$times"); do cat "$examples/$name"; done | redolab "$@" >"$temporary/printed"
    tail -n "$lines" "$temporary/printed"
    printf '\n%s\n' "$look"
}

stop one_line 1 20 'what was written and not synced may survive a crash.' \
    "The log device stops at the sync of the only group. So the group is lost: its commit wasn't answered.
Yet it is recovered, with its byte 07. Bit 0 of the pick keeps its block; --pick 0 would drop it." \
    crash --stop-log 28 --pick 1

stop two_users_one_page 1 20 'which commits a crash may take, by their modes.' \
    "The first group waited for the flush, and is the only one recovered. The second waited for the write,
the fourth for nothing: both were answered and are gone. The third was never answered." \
    crash --turns 30 --stop-log 30

stop three_lines 1 20 'opening itself is stopped.' \
    "There was no run (open none), so all lines are left, and no page comes back. A store that is in use
comes back as it was." \
    crash --stop-log 5

stop torn_page 1 4 'a page is torn, and read from its copy.' \
    "The write of page 3 to its place fails, and half of its sectors survive: the place fails its check.
The page is read from its doublewrite slot and the log: 02 is the last of the two flushed values." \
    crash --stop-data 12 --pick 15

stop log_wraps 32 9 'the log goes round, and a group across its end is lost whole.' \
    "The script is repeated 32 times. Its 124th group begins at 1047567 and lies across the ring's end,
at 1055744. All of its writes came through, and their sync failed. The pick keeps its first two blocks.
In the places of the next 14 stand zeros, and in the tail block of its last bytes an older one does. So the
group is not recovered." \
    crash --stop-log 408 --pick 3
