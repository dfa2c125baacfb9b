#!/bin/bash
# Makes the disks that a loss of power within a run may leave, and lets the same command end each of them.
#
# bench/power.sh [PROGRAM [SECONDS]]
#
# Needs bash 5, awk, the coreutils, findutils, Python 3, and strace with leave to trace. JOBS says how many runs are made
# at once, by default one a processor.
#
# An uncut run is traced first, from seven roots: a boot without a profile, a boot in whose menu an entry goes, a switch of
# the example root, one where a log of what is owed stands, to which it appends, a switch with a copied entry in a folder that stands below /etc, the switch back from that, and a rollback
# from a third generation to the second. From the calls it is told what stood in which folder after each, and which
# bytes and which folders were synced by then. From that the states are made (bench/power.py), in two models:
#
# - ordered: as on ext4, all folders stand as after one call, any one. A file that wasn't synced by then has no bytes,
#   half of them, all lines but the last, or all: all such files at once, each alone as it comes to its place, and each
#   alone at the end. Some moments after the last sync may be lost in this model too.
# - apart: as where folders keep no order among each other, or lie on file systems of their own, each folder stands as after
#   a call of its own, no earlier than its last sync: one folder alone behind all others or ahead of them, all folders of
#   one place (boot, etc, nix, run or var) so, and four throws of a die at each moment.
#
# In each state the same command is run, and each counts under what was found:
#
# - same: the run ends with the status of the uncut one, and leaves the same files but for the stage, and of the manager's
#   file the same states and the same calls, each once or more. Where there is such a file, the run is made too with a
#   manager that has done nothing (next boot): then the files have to be the same, and the status 0 or 4.
# - further the same: a rollback had come to its end, as all stood as the uncut run leaves it. The next one ends with the status
#   and leaves the files of a further rollback.
# - stuck: it ends with another status.
# - another end: it ends with the status, and leaves something else.
# - no boot: before it, a firmware finds a file of the menu that is neither the old nor the new one, a generation that stands
#   has lost its entry, or what the boot loader reads first names an entry that isn't there.
# - not kept: `done` was put by then, and what stands isn't the end yet.
#
# Then the switch of the example root is made on a real ext4 with its default options, an image on a loop device, where
# that may be mounted. The image is copied without a sync each two seconds until SECONDS (40) after the end, each copy is
# mounted, and the same command is run there.
#
# It ends with 1 where one state isn't the same, as it does with NIXOS_NO_SYNC=1. It is no part of the gate.
. "$(dirname "$0")/common.sh"
find_program "$@"
seconds=${2-40}
example=$here/crates/nixswitch/data/example
if ! strace -o "$work/calls" true 2>"$work/stderr"; then
    echo "strace isn't there or may not trace" >&2
    exit 1
fi
if ! python3 -c '' 2>"$work/stderr"; then
    echo "Python 3 isn't there" >&2
    exit 1
fi
failed=0

# Runs the command of these words on the root that is made, which has to end with 0 or 4.
carry() {
    "$program" "$root" "$@" >"$work/stdout" 2>"$work/stderr"
    case $? in
    0 | 4) ;;
    *)
        echo "$*: $(cat "$work/stderr")" >&2
        exit 1
        ;;
    esac
}

# try_root NAME WORDS..: tries the states of a command on a copy of the root that is made.
try_root() {
    local name=$1
    shift
    rm -rf "$work/states"
    mkdir "$work/states"
    python3 "$here/bench/power.py" "$program" "$work/states" "$name" "$root" "$@" || failed=1
}

# fresh FOLDER: makes the root a copy of a folder.
fresh() {
    rm -rf "$root"
    cp -r "$1" "$root"
}

# A root with three systems, whose profile is at the second of two generations; the first is gone, and its boot entry isn't.
make_menu() {
    local name
    fresh "$here/crates/nixswitch/data/root"
    for name in b-sys c-sys; do
        cp -r "$root/tree/nix/store/a-sys" "$root/tree/nix/store/$name"
    done
    carry boot nix/store/a-sys
    carry boot nix/store/b-sys
    rm "$root/tree/nix/var/nix/profiles/system-1-link"
}

# The example root, where a switch that was cut has left a log, by which a unit waits for a restart.
make_logged() {
    fresh "$example"
    mkdir -p "$root/tree/run/nixos"
    printf 'F 0644 0 0\nstart 1\nweb.socket\nend\nrestart 1\nsshd.service\nend\nreload 0\nend\n' >"$root/tree/run/nixos/owed-log"
}

# The example root, whose new system has a copied entry in a folder that stands already too.
make_copied() {
    local entry
    fresh "$example"
    entry=$root/tree/nix/store/web-24.11/etc/ssh/banner
    printf 'F 0644 0 0\nAuthorized use only.\n' >"$entry"
    printf 'F 0644 0 0\n0640' >"$entry.mode"
}

# What a root has but for the stage, and of the manager's file all lines, each once.
files() {
    (cd "$1" &&
        find tree -path tree/nix/var/nixswitch.stage -prune -o -type f -print0 | sort -z | xargs -0 tail -v -c +1 &&
        sort -u manager)
}

# Copies an image while the run's changes may still be on the way to it, and judges each copy.
try_ext4() {
    local at status image=$work/image mounted=$work/mounted wanted same=0 copies=0
    mkdir -p "$mounted"
    truncate -s 64M "$image"
    if ! { mkfs.ext4 -q "$image" && mount -o loop "$image" "$mounted"; } 2>"$work/stderr"; then
        echo "ext4: left out, as no image can be made or mounted: $(head -n 1 "$work/stderr")"
        return
    fi
    cp -r "$example/." "$mounted"
    sync
    "$program" "$mounted" switch nix/store/web-24.11 >"$work/stdout" 2>"$work/stderr"
    wanted=$?
    for ((at = 0; at <= seconds; at += 2)); do
        cp --sparse=always "$image" "$image-$at"
        sleep 2
    done
    files "$mounted" >"$work/wanted"
    umount "$mounted"
    for ((at = 0; at <= seconds; at += 2)); do
        copies=$((copies + 1))
        mount -o loop "$image-$at" "$mounted" || exit 1
        "$program" "$mounted" switch nix/store/web-24.11 >"$work/stdout" 2>"$work/stderr"
        status=$?
        if [ "$status" != "$wanted" ]; then
            echo "    after $at seconds: status $status, $(cat "$work/stderr")"
        elif ! files "$mounted" | cmp -s - "$work/wanted"; then
            echo "    after $at seconds: another end: $(files "$mounted" | diff - "$work/wanted" | sed -n 2p)"
        else
            same=$((same + 1))
        fi
        umount "$mounted"
        rm "$image-$at"
    done
    echo "ext4: $same of $copies copies of an image end the same"
    [ "$same" = "$copies" ] || failed=1
}

fresh "$here/crates/nixswitch/data/root"
try_root 'a boot without a profile' boot nix/store/a-sys
make_menu
try_root 'a boot in whose menu an entry goes' boot nix/store/c-sys
fresh "$example"
try_root 'a switch of the example' switch nix/store/web-24.11
make_logged
try_root 'a switch where a log stands' switch nix/store/web-24.11
make_copied
try_root 'a switch with a copy in a folder' switch nix/store/web-24.11
carry switch nix/store/web-24.11
try_root 'the switch back from that' switch nix/store/web-24.05
carry switch nix/store/web-24.05
carry switch nix/store/web-24.11
try_root 'a rollback' rollback
try_ext4
exit "$failed"
