#!/bin/bash
# Draws the steps of a switch of the example root, as the program takes them, or of a rollback: the pictures of docs/SWITCH.md.
#
# bench/steps.sh [PROGRAM [rollback]]
#
# Needs bash, awk, the coreutils, and strace with leave to trace. It runs the switch on a copy of
# crates/nixswitch/data/example under strace, and draws a line for each rename and each removal below the root, and for
# what is put on standard output. A rename of the manager's file is drawn as the act that its journal has gained, or as the
# load of definitions, and a write to the log of what is owed as what is appended to it. With `rollback` the system in use is made a generation and the switch is made, and then the way back is
# drawn. It ends with 1 where a run doesn't end with its status: 4 to the system that has a failed unit, and 0 to the other.
. "$(dirname "$0")/common.sh"
find_program "$@"
way=${2-switch}
if ! strace -o "$work/calls" true 2>"$work/stderr"; then
    echo "strace isn't there or may not trace" >&2
    exit 1
fi

cat >"$work/draw.awk" <<'AWK'
# Draws a step of a group, below a line that parts it from another group.
function draw(group, what) {
    if (group != last)
        print "    |"
    last = group
    printf "%3d +-- %-9s %s\n", ++steps, group, what
}
# The group of a place, by the part of a switch that owns it.
function group_of(place) {
    if (place ~ /^nix\/var\/nix\/profiles\//)
        return "profile"
    if (place ~ /^boot\//)
        return "boot"
    if (place == "run/nixos/rollback-goal")
        return "goal"
    if (place == "run/nixos/owed-log")
        return "log"
    if (place ~ /^run\/nixos\//)
        return "lists"
    if (place ~ /^var\/lib\/nixos\// || place ~ /^etc\/(group|passwd|shadow)$/)
        return "accounts"
    return place ~ /^etc\// ? "etc" : "system"
}
# The last path that a call names, below the tree.
function place_of(call) {
    sub(/"[^"]*$/, "", call)
    sub(/.*"/, "", call)
    sub("^" root "(tree/)?", "", call)
    return call
}
# What the manager's new state has that the old one hadn't: an act, or the definitions that it has loaded.
function draw_act(    count, lines, at, acts, act) {
    count = split(state, lines, /\\n/)
    for (at = 1; at <= count; at++)
        if (lines[at] ~ /^(stop|reload|restart|start) /)
            act[++acts] = lines[at]
    if (acts == known) {
        sub(/^loaded /, "", lines[1])
        draw("system", "load " lines[1])
    } else
        draw("units", act[acts])
    known = acts
}

{ sub(/^[0-9]+ +/, "") }
/ = -1 / { next }
/^write\(1</ {
    if (!put++)
        print "    the report, on standard output"
    else if (!closed++)
        print "    |\n    the closing text, on standard output"
}
/^write\([0-9]+<[^>]*\/manager\.new>/ {
    state = $0
    sub(/^[^"]*"/, "", state)
    sub(/"[^"]*$/, "", state)
}
/^write\([0-9]+<[^>]*\/run\/nixos\/owed-log>/ { draw("log", "append run/nixos/owed-log") }
/^rename/ {
    place = place_of($0)
    if (place == "manager")
        draw_act()
    else
        draw(group_of(place), "put " place)
}
/^unlink/ {
    place = place_of($0)
    if (place !~ /nixswitch\.stage$/)
        draw(group_of(place), "remove " place)
}
AWK

# carry STATUS WORDS..: runs a command, which has to end with this status. What stands in `tracing` goes before it.
tracing=()
carry() {
    local wanted=$1 status
    shift
    "${tracing[@]}" "$program" "$root" "$@" >"$work/stdout" 2>"$work/stderr"
    status=$?
    [ $status = "$wanted" ] && return
    echo "$*: it ended with $status: $(cat "$work/stderr")" >&2
    exit 1
}

cp -r "$here/crates/nixswitch/data/example" "$root"
trace=(strace -f -y -s 1000000 -e 'trace=write,rename,renameat,renameat2,unlink,unlinkat' -o "$work/calls")
# What the journal has before the run that is drawn.
known() {
    grep -cE '^(stop|reload|restart|start) ' "$root/manager"
}
if [ "$way" = rollback ]; then
    carry 0 switch nix/store/web-24.05
    carry 4 switch nix/store/web-24.11
    known=$(known)
    tracing=("${trace[@]}")
    carry 0 rollback
else
    known=$(known)
    tracing=("${trace[@]}")
    carry 4 switch nix/store/web-24.11
fi
awk -v root="$root/" -v known="$known" -f "$work/draw.awk" "$work/calls"
