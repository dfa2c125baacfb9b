#!/bin/sh
# Shows a boot, a dry run, a switch, the way back and the generations on copies of the example roots, a switch that is killed and
# run again, and one that is killed before a reboot.
#
# bench/example.sh [PROGRAM]
#
# With a program, that is run. With none, the sources are run as they stand by the toolchain's rt try, without a proof:
# it compiles them, which takes most of the time, and keeps nothing. The copies of crates/nixswitch/data/root and
# example are made in the folder nixswitch-example of $TMPDIR, or of /tmp, and stay there to be looked at.
#
# The switch that is killed needs a program, and strace with leave to trace. It is killed as it renames the stage to an
# entry of /etc, and its root is compared with that of the uncut switch once it has been run again.
#
# Needs awk, the coreutils and diffutils, and without a program rt. It ends with 1 where a run doesn't end with its
# status, or where the two roots differ.
set -u
program=${1:+$(realpath "$1")}
cd "$(dirname "$0")/.." || exit 1
here=$PWD
scratch=${TMPDIR:-/tmp}/nixswitch-example
runs=$scratch/unproved
failed=0

# Has rt try make a run of these words once it has compiled: plan NAME ROOT WORDS..
plan() {
    name=$1
    root=$2
    shift 2
    : >"$runs/$name"
    printf '%s\n' "$scratch/$root" "$@" >"$runs/$name.args"
}

# Shows what rt try told of a run, and sets `status`.
unproved() {
    awk -v head="== $1" '/^== / { inside = 0 } inside { print } $0 == head { inside = 1 }' "$runs/stdout"
    awk -v head="case=$1" '$1 == head { printf "%s", told; exit } /^case=/ { told = ""; next } { told = told $0 "\n" }' "$runs/stderr"
    status=$(sed -n "s/^case=$1 run=ended status=\([0-9]*\) .*/\1/p" "$runs/stderr")
}

# Runs the program over a root: proved ROOT WORDS.., and sets `status`.
proved() {
    (cd "$scratch" && "$program" "$@")
    status=$?
}

# Shows a run that has to end with a status: show NAME STATUS ROOT WORDS..
show() {
    name=$1
    wanted=$2
    shift 2
    echo "$ nixswitch $*"
    if [ -n "$program" ]; then
        proved "$@"
    else
        unproved "$name"
    fi
    echo "exit status ${status:-unknown}"
    [ "$status" = "$wanted" ] || failed=1
}

# Shows a command in the scratch folder and what it prints.
look() {
    echo "$ $*"
    (cd "$scratch" && "$@")
}

# Sets `kind` and `number` to the rename by which a switch of the example puts this place: strace counts each kind of call.
find_rename() {
    rm -rf "$runs/traced"
    cp -r crates/nixswitch/data/example "$runs/traced"
    strace -f -o "$runs/calls" -e trace=rename,renameat,renameat2 \
        "$program" "$runs/traced" switch nix/store/web-24.11 >"$runs/stdout" 2>"$runs/stderr"
    kind=$(sed -n "s,^[0-9]* *\(rename[a-z0-9]*\)(.*/$1\".*,\1,p" "$runs/calls" | head -n 1)
    number=$(grep "^[0-9]* *$kind(" "$runs/calls" | grep -n "/$1\"" | head -n 1 | cut -d : -f 1)
}

# Runs a switch of a root that is killed as it makes this rename.
killed_at() {
    (cd "$scratch" && exec strace -f -o "$runs/calls" -e inject="$2:signal=KILL:when=$3" \
        "$program" "$1" switch nix/store/web-24.11) >"$runs/stdout" 2>"$runs/stderr"
}

# Shows a switch that is killed at an entry of /etc, and that the next run leaves what the uncut one has left.
show_cut() {
    entry=tree/etc/metrics.toml
    find_rename "$entry"
    echo "$ nixswitch cut switch nix/store/web-24.11    # killed as it renames the stage to cut/$entry"
    { killed_at cut "$kind" "$number"; } 2>"$runs/shell"
    if [ $? != 137 ] || [ -e "$scratch/cut/$entry" ]; then
        echo "it wasn't killed there"
        failed=1
    fi
    look cat cut/tree/nix/var/nixswitch.stage
    look cat cut/tree/run/nixos/owed-log
    show 9-again 4 cut switch nix/store/web-24.11
    if look diff -r example cut; then
        echo "no difference"
    else
        failed=1
    fi
}

# Shows a switch that is killed once the profile names its system, a reboot, and the start-up that makes that system whole.
show_reboot() {
    entry=tree/boot/loader/entries/nixos-generation-1.conf
    find_rename "$entry"
    echo "$ nixswitch lost switch nix/store/web-24.11    # killed as it renames the stage to lost/$entry"
    { killed_at lost "$kind" "$number"; } 2>"$runs/shell"
    look cat lost/tree/nix/var/nix/profiles/system-1-link lost/tree/etc/static
    "$here/tools/reboot" "$scratch/lost"
    echo "$ tools/reboot lost"
    look cat lost/manager
    show 10-start-up 4 lost start-up
    look cat lost/manager
    if look diff -r example/tree/etc lost/tree/etc; then
        echo "no difference"
    else
        failed=1
    fi
}

rm -rf "$scratch"
mkdir -p "$runs" || exit 1
cp -r crates/nixswitch/data/root crates/nixswitch/data/example "$scratch" || exit 1
cp -r crates/nixswitch/data/example "$scratch/cut" || exit 1
cp -r crates/nixswitch/data/example "$scratch/back" || exit 1
cp -r crates/nixswitch/data/example "$scratch/lost" || exit 1
if [ -z "$program" ]; then
    echo "The program of this run isn't proved: its sources are compiled as they stand, in one to two minutes."
    echo "make build proves it, which takes up to half an hour the first time; from then on make run shows that one."
    plan 1-boot root boot nix/store/a-sys
    plan 2-dry-activate example dry-activate nix/store/web-24.11
    plan 3-switch example switch nix/store/web-24.11
    plan 4-old back switch nix/store/web-24.05
    plan 5-new back switch nix/store/web-24.11
    plan 6-rollback back rollback
    plan 7-list back generations
    plan 8-further back rollback
    if ! (cd crates/nixswitch && rt try --cases "$runs") >"$runs/stdout" 2>"$runs/stderr"; then
        cat "$runs/stderr" >&2
        exit 1
    fi
else
    echo "The program of this run is $program."
fi
echo "It runs in $scratch."
echo
show 1-boot 0 root boot nix/store/a-sys
look cat root/tree/nix/var/nix/profiles/system-1-link root/tree/nix/var/nix/profiles/system
look cat root/tree/boot/loader/entries/nixos-generation-1.conf root/tree/boot/loader/loader.conf
echo
show 2-dry-activate 0 example dry-activate nix/store/web-24.11
echo
show 3-switch 4 example switch nix/store/web-24.11
look cat example/tree/etc/group example/tree/etc/passwd example/tree/etc/shadow
look cat example/tree/etc/metrics.toml example/tree/etc/localtime example/tree/etc/.clean
look cat example/tree/etc/static example/tree/etc/systemd/system/metrics.service example/tree/etc/motd.d
look cat example/tree/nix/var/nix/profiles/system-1-link example/tree/nix/var/nix/profiles/system
look cat example/tree/boot/loader/entries/nixos-generation-1.conf example/tree/boot/loader/loader.conf
look cat example/tree/run/current-system example/manager
echo
show 4-old 0 back switch nix/store/web-24.05
show 5-new 4 back switch nix/store/web-24.11
show 6-rollback 0 back rollback
look cat back/tree/nix/var/nix/profiles/system back/tree/boot/loader/loader.conf
show 7-list 0 back generations
show 8-further 2 back rollback
echo
if [ -n "$program" ] && strace -o "$runs/calls" true 2>"$runs/stderr"; then
    show_cut
    echo
    show_reboot
else
    echo "The switches that are killed are left out: they need the built program, and strace with leave to trace."
fi
rm -rf "$runs"
exit "$failed"
