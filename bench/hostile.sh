#!/bin/bash
# Runs the program on roots that no host wrote: symbolic links, special files, bad nodes and names, very long files,
# folders on other file systems, and folders that are swapped for links while it runs.
#
# bench/hostile.sh [PROGRAM]
#
# Needs bash, the coreutils and findutils. The rows on permissions need a user other than root, those on two runs at once
# need flock, and those on other file systems need unshare and leave to mount some. Where strace is there and may trace,
# it also looks at what is opened, swaps folders while the program waits in a call, and has calls fail: interrupted
# ones, a move to another file system, and want of memory from some call on.
#
# For each root it prints whether the status is the wanted one, whether a fault of the host names its place and its cause,
# whether the run ended within ten seconds, and whether all that lies outside the root stayed as it was and unopened. It
# ends with 1 where one row differs. It is no part of the gate.
. "$(dirname "$0")/common.sh"
find_program "$@"
failed=0
trace=
if strace -o "$work/opened" true 2>"$work/stderr"; then
    trace="strace -f -y -e trace=open,openat,openat2,creat,getdents64,rename,write,fdatasync,fsync -o $work/opened"
else
    echo "strace isn't there or may not trace: what is opened isn't looked at"
fi

# A root with one system, and a folder beside it that no run may touch.
fresh() {
    chmod -R u+rwX "$work"
    rm -rf "$work/root" "$work/outside"
    mkdir -p "$work/outside/var/nix/profiles" "$work/root/tree/nix/store/a-sys"
    printf 'F 0644 0 0\n24.05\n' >"$work/root/tree/nix/store/a-sys/nixos-version"
    cp -r "$work/root/tree" "$work/outside/tree"
    echo secret >"$work/outside/file"
}

# What a folder holds: each file with its bytes, each folder, each link.
holding() {
    (cd "$1" && find . -printf '%y %p %l %m\n' | sort && find . -type f -exec cksum {} + | sort)
}

# What lies outside the root.
outside() {
    holding "$work/outside"
}

command=boot
argument=nix/store/a-sys
within=()
inject=
place=$work/root
output=$work/stdout
link="a link or a special file"

# judge NAME VERDICT: prints a row, and ends well where it is ok.
judge() {
    printf '%-60s %s\n' "$1" "$2"
    [ "$2" = ok ] || failed=1
    [ "$2" = ok ]
}

# run NAME STATUS [FAULT]: makes the command with the system in the root, or alone where none is set, and judges the row. A
# fault of the host has this pattern as its second line.
run() {
    before=$(outside)
    : >"$work/opened"
    # shellcheck disable=SC2086
    "${within[@]}" timeout 10 $trace $inject "$program" "$place" "$command" ${argument:+"$argument"} >"$output" 2>"$work/stderr"
    status=$?
    verdict=ok
    [ "$status" = "$2" ] || verdict="status $status, not $2"
    [ "$status" != 3 ] || [[ "$(cat "$work/stderr")" == "fault: host"$'\n'${3-} ]] || verdict="said: $(tail -n 1 "$work/stderr")"
    [ "$status" != 124 ] || verdict="did not end"
    [ "$before" = "$(outside)" ] || verdict="changed what lies outside"
    ! grep -F "<$work/outside" "$work/opened" | grep -qE '(open|creat|getdents)' || verdict="opened what lies outside"
    judge "$1" "$verdict"
}

# run_with INJECTION NAME STATUS [FAULT]: the same as strace has these calls end.
run_with() {
    inject="-e inject=$1"
    run "$2" "$3" "${4-}"
    inject=
}

# await COMMAND: waits until a command ends well, but for no more than five seconds.
await() {
    for _ in $(seq 500); do
        ! "$@" 2>"$work/awaited" || return 0
        sleep 0.01
    done
}

tree=$work/root/tree
stage=$tree/nix/var/nixswitch.stage
profiles=$tree/nix/var/nix/profiles

fresh
run "a plain root" 0
run "the same root again" 0
rm -rf "$work/root"
run "no root" 2
fresh
place= run "an empty root text" 3 "no root is named"
fresh && rm -rf "$work/root" && ln -s "$work/nowhere" "$work/root"
run "a root that is a link to nothing" 2
fresh && rm -rf "$work/root" && echo text >"$work/root"
run "a root that is a file" 2

fresh && rm -rf "$tree" && ln -s "$work/outside/tree" "$tree"
run "the tree is a link" 3 "tree: $link"
fresh && rm -rf "$tree/nix/store" && ln -s "$work/outside/tree/nix/store" "$tree/nix/store"
run "a folder on the way to a read is a link" 3 "nix/store: $link"
fresh && ln -s "$work/outside/var" "$tree/nix/var"
run "a folder on the way to the stage is a link" 3 "nix/var: $link"
fresh && mkdir -p "$tree/nix/var/nix" && ln -s "$work/outside/var" "$profiles"
run "the profiles' folder is a link" 3 "nix/var/nix/profiles: $link"
fresh && rm "$tree/nix/store/a-sys/nixos-version" && ln -s "$work/outside/file" "$tree/nix/store/a-sys/nixos-version"
run "a leaf is a link" 3 "nix/store/a-sys/nixos-version: $link"
fresh && mkdir -p "$profiles" && ln -s "$work/outside/file" "$profiles/system"
run "the profile is a link of the file system" 3 "nix/var/nix/profiles/system: $link"
fresh && mkdir -p "$tree/nix/var" && ln -s "$work/outside/file" "$stage"
run "the stage is a link" 3 "nix/var/nixswitch.stage: $link"
fresh && mkdir -p "$tree/nix/var" && ln -s "$work/outside/new" "$stage"
run "the stage is a link to nothing" 3 "nix/var/nixswitch.stage: $link"
fresh && mkdir -p "$tree/nix/var" && ln "$work/outside/file" "$stage"
run "the stage is a second name of a file outside" 0
fresh && mkdir -p "$stage/a" && ln -s "$work/outside" "$stage/a/b"
run "the stage is a folder with a link in it" 3 "nix/var/nixswitch.stage/a/b: $link"
fresh && mkdir -p "$stage/a/b"
run "the stage is an empty folder" 0

fresh && rm "$tree/nix/store/a-sys/nixos-version" && mkfifo "$tree/nix/store/a-sys/nixos-version"
run "a leaf is a pipe" 3 "nix/store/a-sys/nixos-version: $link"
fresh && mkdir -p "$profiles" && mkfifo "$profiles/pipe"
run "a pipe among the profiles" 3 "nix/var/nix/profiles/pipe: $link"
fresh && mkdir -p "$tree/nix/var" && mkfifo "$stage"
run "the stage is a pipe" 3 "nix/var/nixswitch.stage: $link"
fresh && mkfifo "$tree/nix/var"
run "a pipe on the way to the stage" 3 "nix/var: $link"

fresh && echo junk >"$tree/nix/store/a-sys/nixos-version"
run "a text that is no node" 3 "nix/store/a-sys/nixos-version: not a node file"
fresh && : >"$tree/nix/store/a-sys/nixos-version"
run "an empty node" 3 "nix/store/a-sys/nixos-version: not a node file"
fresh && printf 'L /nix/store/../../../../outside/file\n' >"$tree/nix/store/a-sys/nixos-version"
run "a link of the tree that leads out of it" 2
fresh && : >"$tree/nix/store/a-sys/nixos-version" && truncate -s 20G "$tree/nix/store/a-sys/nixos-version"
run "twenty gigabytes that are no node" 3 "nix/store/a-sys/nixos-version: not a node file"
fresh && mkdir -p "$profiles" && touch "$profiles/$(printf 'a\377')"
run "a name that is no UTF-8" 3 "nix/var/nix/profiles: holds a name that isn't UTF-8"
fresh && mkdir -p "$profiles" && touch "$profiles/$(printf 'a\nb')"
run "a name with a line feed" 3 "nix/var/nix/profiles/a?b: not a name of a path"

fresh && mkdir -p "$profiles/system/a/b" "$profiles/system/c"
run "empty folders where the profile is to stand" 0
fresh && mkdir -p "$profiles/system/$(printf 'a/%.0s' $(seq 1000))"
run "folders a thousand deep where the profile is to stand" 0
fresh && mkdir -p "$profiles/system/$(printf 'aaaa/%.0s' $(seq 2000))"
run "folders deeper than a path may be" 3 "nix/var/nix/profiles/system/aaaa/*/aaaa: a name or a path that is too long"
fresh && mkdir -p "$profiles/system/a" && printf 'L x\n' >"$profiles/system/a/leaf"
run "a folder with a leaf where the profile is to stand" 2
fresh && printf 'L x\n' >"$tree/nix/var"
run "a leaf where a folder is to stand" 2

menu=$tree/boot/loader
fresh && ln -s "$work/outside/var" "$tree/boot"
run "a folder on the way to the boot menu is a link" 3 "boot: $link"
fresh && mkdir -p "$menu" && ln -s "$work/outside/var" "$menu/entries"
run "the folder of the entries is a link" 3 "boot/loader/entries: $link"
fresh && mkdir -p "$menu/entries" && ln -s "$work/outside/file" "$menu/entries/nixos-generation-1.conf"
run "an entry is a link of the file system" 3 "boot/loader/entries/nixos-generation-1.conf: $link"
fresh && mkdir -p "$menu/entries" && ln "$work/outside/file" "$menu/entries/nixos-generation-1.conf"
run "an entry is a second name of a file outside" 3 "boot/loader/entries/nixos-generation-1.conf: not a node file"
fresh && mkdir -p "$menu/entries" && ln -s "$work/outside/file" "$menu/entries/nixos-generation-7.conf"
run "an entry that goes is a link of the file system" 3 "boot/loader/entries/nixos-generation-7.conf: $link"
fresh && mkdir -p "$menu/entries" && mkfifo "$menu/entries/pipe"
run "a pipe among the entries" 3 "boot/loader/entries/pipe: $link"
fresh && mkdir -p "$menu/entries" && touch "$menu/entries/$(printf 'a\377')"
run "an entry whose name is no UTF-8" 3 "boot/loader/entries: holds a name that isn't UTF-8"
fresh && mkdir -p "$menu/entries" && echo junk >"$menu/entries/nixos-generation-7.conf"
run "an entry that goes is no node" 0
fresh && mkdir -p "$menu" && ln -s "$work/outside/file" "$menu/loader.conf"
run "what the boot loader reads first is a link" 3 "boot/loader/loader.conf: $link"
fresh && mkdir -p "$menu/loader.conf/a/b"
run "empty folders where the boot loader reads first" 0
fresh && mkdir -p "$menu/entries/nixos-generation-1.conf" && printf 'L x\n' >"$menu/entries/nixos-generation-1.conf/leaf"
run "a folder with a leaf where an entry is to stand" 2
fresh && ln -s "$work/outside/file" "$tree/nix/store/a-sys/kernel-params"
run "the kernel's parameters are a link of the file system" 3 "nix/store/a-sys/kernel-params: $link"
fresh && printf 'L /nix/store/../../../../outside/file\n' >"$tree/nix/store/a-sys/kernel-params"
run "the kernel's parameters lead out of the tree" 0
fresh && truncate -s 20G "$tree/nix/store/a-sys/kernel-params"
run "twenty gigabytes of the kernel's parameters" 3 "nix/store/a-sys/kernel-params: not a node file"

command=dry-activate
units=$tree/nix/store/a-sys/etc/systemd/system
fresh
run "a dry run of a plain root" 0
fresh && ln -s "$work/outside/file" "$work/root/manager"
run "the manager's file is a link" 3 "manager: $link"
fresh && mkdir "$work/root/manager"
run "the manager's file is a folder" 3 "manager: a folder"
fresh && mkfifo "$work/root/manager"
run "the manager's file is a pipe" 3 "manager: $link"
fresh && echo junk >"$work/root/manager"
run "the manager's file is no state" 3 "manager: not a manager's state"
fresh && truncate -s 20G "$work/root/manager"
run "the manager's file has twenty gigabytes" 3 "manager: not a manager's state"
fresh && ln -s "$work/outside/file" "$work/root/manager.new"
run "a link where the next state is written" 0
fresh && mkdir -p "$tree/nix/store/a-sys/etc" && ln -s "$work/outside" "$tree/nix/store/a-sys/etc/systemd"
run "a folder on the way to the units is a link" 3 "nix/store/a-sys/etc/systemd: $link"
fresh && mkdir -p "$units" && ln -s "$work/outside/file" "$units/a.service"
run "a unit file is a link of the file system" 3 "nix/store/a-sys/etc/systemd/system/a.service: $link"
fresh && mkdir -p "$units" && mkfifo "$units/a.service"
run "a unit file is a pipe" 3 "nix/store/a-sys/etc/systemd/system/a.service: $link"
fresh && mkdir -p "$units" && printf 'L /nix/store/../../../../outside/file\n' >"$units/a.service"
run "a unit that leads out of the tree" 0
fresh && mkdir -p "$units" && printf 'F 0644 0 0\nA=1\n' >"$units/a.service"
run "a unit with an assignment before any section" 2
fresh && mkdir -p "$tree/run" && printf 'L ../../outside\n' >"$tree/run/current-system"
run "a system in use that is none" 0

command=test
lists=$tree/run/nixos
fresh
run "a switch on a plain root" 0
run "the same switch again" 0
fresh && ln -s "$work/outside/var" "$tree/etc"
run "a folder on the way to the definitions is a link" 3 "etc: $link"
fresh && ln -s "$work/outside/var" "$tree/run"
run "a folder on the way to the log is a link" 3 "run: $link"
fresh && mkdir -p "$tree/etc" && ln -s "$work/outside/file" "$tree/etc/static"
run "the definitions are a link of the file system" 3 "etc/static: $link"
fresh && mkdir -p "$lists" && mkfifo "$lists/start-list"
run "a list is a pipe" 3 "run/nixos/start-list: $link"
fresh && mkdir -p "$lists" && printf 'L ../../outside/file\n' >"$lists/start-list"
run "a list that leads out of the tree" 2
fresh && mkdir -p "$lists/restart-list/a/b"
run "empty folders where a list is to stand" 0
fresh && mkdir -p "$lists/reload-list" && printf 'L x\n' >"$lists/reload-list/leaf"
run "a folder with a leaf where a list is to stand" 2
fresh && ln -s "$work/outside/file" "$work/root/manager.new"
run "the manager's next state is a link" 0
fresh && mkfifo "$work/root/manager.new"
run "the manager's next state is a pipe" 0
fresh && mkdir -p "$work/root/manager.new/a"
run "the manager's next state is a folder" 3 "manager.new: a folder"

system=$tree/nix/store/a-sys
fresh && mkdir -p "$tree/etc" && ln -s "$work/outside/file" "$tree/etc/passwd"
run "an account table is a link of the file system" 3 "etc/passwd: $link"
fresh && mkdir -p "$tree/etc" && mkfifo "$tree/etc/shadow"
run "an account table is a pipe" 3 "etc/shadow: $link"
fresh && mkdir -p "$tree/etc" && printf 'L /nix/store/../../../../outside/file\n' >"$tree/etc/group"
run "an account table that leads out of the tree" 2
fresh && ln -s "$work/outside/file" "$system/users-groups.json"
run "the declared accounts are a link of the file system" 3 "nix/store/a-sys/users-groups.json: $link"
fresh && truncate -s 20G "$system/users-groups.json"
run "twenty gigabytes of declared accounts" 3 "nix/store/a-sys/users-groups.json: not a node file"
fresh && mkdir -p "$tree/var/lib" && ln -s "$work/outside" "$tree/var/lib/nixos"
run "a folder on the way to the ids is a link" 3 "var/lib/nixos: $link"
fresh && mkdir -p "$system/etc/app" "$tree/etc" && printf 'F 0644 0 0\n' >"$system/etc/app/a" && ln -s "$work/outside" "$tree/etc/app"
run "a folder on the way to an entry of /etc is a link" 3 "etc/app: $link"
fresh && mkdir -p "$system/etc" "$tree/etc" && printf 'F 0644 0 0\n' >"$system/etc/a" && ln -s "$work/outside/file" "$tree/etc/a"
run "an entry of /etc is a link of the file system" 3 "etc/a: $link"
fresh && mkdir -p "$system/etc" "$tree/etc/a/b" && printf 'F 0644 0 0\n' >"$system/etc/a"
run "empty folders where an entry of /etc is to stand" 0
fresh && mkdir -p "$system/etc" && printf 'L /nix/store/../../../../outside/file\n' >"$system/etc/a" && printf 'F 0644 0 0\n0644\n' >"$system/etc/a.mode"
run "a copy of what leads out of the tree" 2

# What can be seen before units are stopped is seen before.

# stopping: a root on which a switch stops a unit, sets accounts and puts an entry of /etc.
stopping() {
    fresh
    cp -r "$system" "$tree/nix/store/b-sys"
    mkdir -p "$tree/nix/store/b-sys/etc/systemd/system" "$system/etc" "$tree/etc" "$tree/run" "$tree/var/lib/nixos"
    printf 'F 0644 0 0\n[Service]\n' >"$tree/nix/store/b-sys/etc/systemd/system/a.service"
    printf 'L /nix/store/b-sys\n' >"$tree/run/current-system"
    printf 'loaded /nix/store/b-sys/etc\nactive a.service\n' >"$work/root/manager"
    printf 'F 0644 0 0\n' >"$system/etc/a"
    printf 'F 0644 0 0\n{"mutableUsers":true,"groups":[],"users":[]}' >"$system/users-groups.json"
}

# untouched PLACE WHAT [CAUSE]: makes the switch with a node of the file system at this place of the tree, which has to end with
# a fault there, by default that of a link, and change nothing.
untouched() {
    local held
    held=$(holding "$work/root")
    run "$2: a fault" 3 "$1: ${3-$link}" || return
    if [ ! -s "$output" ] && [ "$(holding "$work/root")" = "$held" ]; then
        judge "and nothing is stopped" ok
    else
        judge "and nothing is stopped" "something is"
    fi
}

stopping
run "a switch that stops a unit" 0
grep -q '^stop a.service$' "$output"
judge "it does" "$([ $? = 0 ] && echo ok || echo "it doesn't")"
for at in etc/a etc/static etc/.clean etc/passwd etc/group etc/shadow var/lib/nixos/uid-map var/lib/nixos/gid-map \
    var/lib/nixos/declarative-users var/lib/nixos/declarative-groups run/nixos/owed-log run/nixos/start-list; do
    stopping && mkdir -p "$tree/$(dirname "$at")" && ln -s "$work/outside/file" "$tree/$at"
    untouched "$at" "a link of the file system at $at"
    stopping && mkdir -p "$tree/$(dirname "$at")" && mkfifo "$tree/$at"
    untouched "$at" "a pipe at $at"
done

# refused NAME LINE: makes a command that has to be refused by this line, and to change nothing in the root.
refused() {
    local held
    held=$(holding "$work/root")
    run "$1" 2 || return
    if [ "$(cat "$work/stderr")" != "refused: $2" ]; then
        judge "it says why" "said: $(cat "$work/stderr")"
    elif [ -s "$output" ] || [ "$(holding "$work/root")" != "$held" ]; then
        judge "it puts nothing and changes nothing" "it does"
    fi
}

# owing: the same root, on which the unit is started again. What is owed to it is in the log from before the stop until after the start.
owing() {
    stopping
    mkdir -p "$units" "$lists"
    printf 'F 0644 0 0\n[Service]\nExecStart=/bin/a\n' >"$units/a.service"
}

# run_owing NAME: makes the switch, which has to start the unit, and to leave neither a log nor a list.
run_owing() {
    run "$1" 0 || return
    if [ "$(tail -n 1 "$work/root/manager")" != "start a.service /nix/store/a-sys/etc" ]; then
        judge "it starts the unit" "$(tail -n 1 "$work/root/manager")"
    elif [ -n "$(find "$lists" -type f)" ]; then
        judge "it leaves neither a log nor a list" "$(find "$lists" -type f)"
    else
        judge "it starts the unit, and leaves neither a log nor a list" ok
    fi
}

owing
run_owing "a switch that starts a unit again"
for at in owed-log start-list; do
    owing && mkdir -p "$lists/$at/a/b"
    run_owing "empty folders at run/nixos/$at"
    owing && mkdir -p "$lists/$at" && printf 'L x\n' >"$lists/$at/leaf"
    refused "a folder with a leaf at run/nixos/$at" "in the way: run/nixos/$at"
    owing && printf 'L ../../outside/file\n' >"$lists/$at"
    refused "a link out of the tree at run/nixos/$at" "in the way: run/nixos/$at"
    owing && echo junk >"$lists/$at"
    untouched "run/nixos/$at" "a text that is no node at run/nixos/$at" "not a node file"
    owing && truncate -s 20G "$lists/$at"
    run "twenty gigabytes that are no node at run/nixos/$at" 3 "run/nixos/$at: not a node file"
    owing && printf 'F 0644 0 0\nstart 1\nno unit\n\377\nend\n' >"$lists/$at"
    run_owing "a text that names no unit at run/nixos/$at"
done

# long PATH NUMBER: a file of so many bytes.
long() {
    { printf 'F 0644 0 0\n' && head -c "$2" /dev/zero | tr '\0' a; } >"$1"
}

# What a switch reads has a greatest length.
for at in etc/.clean etc/group etc/passwd etc/shadow nix/store/a-sys/etc/fstab nix/store/a-sys/etc/systemd/system/b.service \
    nix/store/a-sys/nixos-version nix/store/a-sys/users-groups.json nix/store/b-sys/etc/systemd/system/a.service \
    run/nixos/owed-log run/nixos/reload-list run/nixos/restart-list run/nixos/start-list var/lib/nixos/declarative-groups \
    var/lib/nixos/declarative-users var/lib/nixos/gid-map var/lib/nixos/uid-map; do
    owing && mkdir -p "$(dirname "$tree/$at")" && long "$tree/$at" 16777217
    refused "longer than 16 MiB: $at" "too many: bytes 16777217"
done
for at in owed-log reload-list restart-list start-list; do
    owing && long "$lists/$at" 16777216
    run_owing "as long as may be: run/nixos/$at"
done
for at in etc/.clean nix/store/a-sys/nixos-version; do
    owing && long "$tree/$at" 16777216
    run "as long as may be: $at" 0
done
owing && printf 'F 0644 0 0\n' >"$lists/owed-log"
run_owing "an empty log"
owing && printf 'F 0644 0 0\nstart 0\nend\nstart 18446744073709551616\n' >"$lists/owed-log"
run_owing "a log that ends within a block of very many names"
owing && { printf 'F 0644 0 0\n' && yes $'start 0\nend' | head -c 65532; } >"$lists/owed-log"
run_owing "a log to which nothing more can be appended"
owing && mkdir -p "$tree/nix/store/log" && printf 'F 0644 0 0\nstart 0\nend\n' >"$tree/nix/store/log/file" && printf 'L /nix/store/log/file\n' >"$lists/owed-log"
run_owing "a log that is a link into the store"
[ "$(cat "$tree/nix/store/log/file")" = $'F 0644 0 0\nstart 0\nend' ]
judge "nothing is appended there" "$([ $? = 0 ] && echo ok || echo "something is")"

# mounted FOLDER WORDS..: makes a command where a folder lies on another file system, with all that it held. It ends with 99
# where something there has changed.
mounted() {
    mount -t tmpfs tmpfs "$work/other" && cp -a "$1/." "$work/other" && mount --bind "$work/other" "$1" || exit
    held=$(holding "$1")
    "${@:2}"
    status=$?
    [ "$(holding "$1")" = "$held" ] || exit 99
    exit $status
}

# elsewhere PLACE CALL WORDS..: makes a call of these functions while the folder at this place of the tree lies on another file
# system for the program alone.
elsewhere() {
    within=(unshare -m bash -c 'mounted "$@"' mounted "$tree/$1")
    mkdir -p "$tree/$1" "$work/other"
    "${@:2}"
    within=()
}

# apart PLACE: the command finds that this folder of the tree lies on another file system, and changes nothing.
apart() {
    elsewhere "$1" untouched "$1" "$command, another file system at $1" "on another file system"
}

if unshare -m mount -t tmpfs tmpfs "$work" 2>"$work/stderr"; then
    export -f mounted holding
    export work
    for at in etc etc/app etc/gone etc/static run run/nixos var var/lib/nixos nix nix/var nix/var/nixswitch.stage; do
        stopping && mkdir -p "$system/etc/app" "$tree/etc/gone"
        printf 'F 0644 0 0\n' >"$system/etc/app/a"
        printf 'L /etc/static/gone/a\n' >"$tree/etc/gone/a"
        apart "$at"
    done
    for command in boot switch; do
        for at in nix/var/nix nix/var/nix/profiles boot boot/loader/entries; do
            stopping
            apart "$at"
        done
    done
    # A collection looks at each folder but those of the store, and puts nothing in most of them.
    command=collect
    argument=1
    for at in home run/user var/lib/other; do
        stopping
        elsewhere "$at" run "$command, another file system at $at: no fault" 0
    done
    stopping
    apart boot
    command=test
    argument=nix/store/a-sys
    for at in nix/store nix/store/a-sys nix/store/a-sys/etc nix/var/nix/profiles home; do
        stopping
        elsewhere "$at" run "$command, another file system at $at: no fault" 0
    done
    # The same file system has the same number, so the move alone tells.
    stopping
    within=(unshare -m sh -c 'mount --bind "$1" "$1" && shift && exec "$@"' mounted "$tree/etc")
    run "the same file system once more at etc" 3 "etc/*: on another file system"
    within=()
    run "the same root when it is mounted once" 0
else
    echo "nothing may be mounted here: the rows on other file systems are left out"
fi

# A rollback, and what stands where its goal is recorded.
recorded=$lists/rollback-goal

# generations NUMBER: a root with two systems, of which each has a generation. This one is the current one.
generations() {
    fresh
    cp -r "$tree/nix/store/a-sys" "$tree/nix/store/b-sys"
    mkdir -p "$profiles" "$lists"
    printf 'L /nix/store/a-sys\n' >"$profiles/system-1-link"
    printf 'L /nix/store/b-sys\n' >"$profiles/system-2-link"
    printf 'L system-%d-link\n' "$1" >"$profiles/system"
}

# run_back NAME [NUMBER]: makes a rollback that has to go to the generation of this number, by default the first, and leave no
# goal.
run_back() {
    run "$1" 0 || return
    if [ "$(cat "$profiles/system")" = "L system-${2-1}-link" ] && [ ! -e "$recorded" ]; then
        judge "it goes to generation ${2-1}, and leaves no goal" ok
    else
        judge "it goes to generation ${2-1}, and leaves no goal" "$(cat "$profiles/system")"
    fi
}

command=rollback
generations 2
run "a rollback with a word too many" 1
argument=
run_back "a rollback"
refused "the same rollback again, at the first generation" "no previous generation"
fresh
refused "a rollback without a generation" "no previous generation"
generations 2 && printf 'L /tmp\n' >"$profiles/system-1-link"
refused "no generation before names a system" "no previous generation"
generations 3
refused "the profile names no generation that stands" "no previous generation"
generations 2 && rm "$tree/nix/store/a-sys/nixos-version"
refused "the system of the generation before isn't there" "no such system"
generations 1 && printf 'F 0644 0 0\n2\n' >"$recorded"
run_back "a goal above the current generation" 2
generations 2 && printf 'F 0644 0 0\n2\n' >"$recorded"
run_back "a goal that is the current generation" 2
generations 2 && printf 'F 0644 0 0\n7\n' >"$recorded"
run_back "a goal that is no generation"
generations 2 && printf 'L /tmp\n' >"$profiles/system-3-link" && printf 'F 0644 0 0\n3\n' >"$recorded"
run_back "a goal that names no system"
generations 2 && printf 'F 0644 0 0\n02\n' >"$recorded"
run_back "a goal with a zero before it"
generations 2 && { printf 'F 0644 0 0\n2' && head -c 70000000 /dev/zero | tr '\0' 0; } >"$recorded"
refused "a goal of seventy megabytes" "too many: bytes 70000001"
generations 2 && long "$recorded" 16777217
refused "longer than 16 MiB: run/nixos/rollback-goal" "too many: bytes 16777217"
generations 2 && long "$recorded" 16777216
run_back "as long as may be: run/nixos/rollback-goal"
generations 2 && printf 'L ../../outside/file\n' >"$recorded"
run_back "a goal that leads out of the tree"
generations 2 && mkdir -p "$recorded/a/b"
run_back "empty folders where the goal is recorded"
generations 2 && mkdir -p "$recorded" && printf 'L x\n' >"$recorded/leaf"
refused "a folder with a leaf where the goal is recorded" "in the way: run/nixos/rollback-goal"
generations 2 && ln -s "$work/outside/file" "$recorded"
run "the goal is a link of the file system" 3 "run/nixos/rollback-goal: $link"
generations 2 && mkfifo "$recorded"
run "the goal is a pipe" 3 "run/nixos/rollback-goal: $link"
generations 2 && echo junk >"$recorded"
run "a goal that is no node" 3 "run/nixos/rollback-goal: not a node file"
command=boot
argument=nix/store/a-sys
generations 2 && printf 'F 0644 0 0\n1\n' >"$recorded"
run "a boot where a goal is recorded" 0
if [ -e "$recorded" ]; then judge "it leaves no goal" "it does"; else judge "it leaves no goal" ok; fi
command=test
generations 2 && printf 'F 0644 0 0\n1\n' >"$recorded"
run "a test where a goal is recorded" 0
if [ -e "$recorded" ]; then judge "it leaves the goal" ok; else judge "it leaves the goal" "it doesn't"; fi

# A collection, and what stands where it looks.

command=collect
argument=1
generations 2
run "a collection" 0
if [ -e "$profiles/system-1-link" ] || [ -e "$tree/nix/store/a-sys/nixos-version" ]; then judge "it drops the first generation" "it doesn't"; else judge "it drops the first generation" ok; fi
generations 2 && long "$tree/nix/store/b-sys/nixos-version" 16777217
refused "the version of a kept system is longer than 16 MiB" "too many: bytes 16777217"
generations 2 && long "$tree/nix/store/b-sys/kernel-params" 16777216
run "parameters of a kept system that are as long as may be" 0
generations 2 && long "$tree/nix/store/a-sys/nixos-version" 16777217
run "the version of a system that goes is longer than 16 MiB" 0
for at in owed-log start-list restart-list reload-list; do
    generations 2 && printf 'F 0644 0 0\n' >"$lists/$at"
    refused "what an unfinished switch has left stands at $at" "a switch is unfinished"
done
generations 2 && ln -s "$work/outside/file" "$lists/owed-log"
run "the log is a link of the file system" 3 "run/nixos/owed-log: $link"
generations 2 && mkfifo "$tree/nix/store/b-sys/pipe"
run "a pipe in a kept system" 3 "nix/store/b-sys/pipe: $link"
generations 2 && mkdir -p "$tree/home" && ln -s "$work/outside/file" "$tree/home/result"
run "a link of the file system outside the store" 3 "home/result: $link"
generations 2 && echo junk >"$tree/nix/store/b-sys/sw"
run "a file of a kept system that is no node" 3 "nix/store/b-sys/sw: not a node file"

# list NAME LINES: lists the generations, which has to put these lines and to change nothing in the root.
list() {
    local held
    held=$(holding "$work/root")
    run "$1" 0 || return
    if [ "$(cat "$output")" != "$2" ]; then
        judge "it puts these lines" "it puts: $(cat "$output")"
    elif [ "$(holding "$work/root")" != "$held" ]; then
        judge "it changes nothing" "it does"
    fi
}

command=generations
generations 2
run "a list with a word too many" 1
argument=
list "a list of the generations" $'1 nix/store/a-sys\n2 nix/store/b-sys current'
fresh
list "a list where there are none" ''
generations 3 && printf 'L ../../../../outside/file\n' >"$profiles/system-1-link"
list "a list with a generation that leads out of the tree" $'1 -\n2 nix/store/b-sys'
generations 2 && printf 'F 0644 0 0\n' >"$profiles/system-3-link"
list "a list with a generation that is a file" $'1 nix/store/a-sys\n2 nix/store/b-sys current\n3 -'
generations 2 && ln -s "$work/outside/file" "$profiles/system-3-link"
run "a generation is a link of the file system" 3 "nix/var/nix/profiles/system-3-link: $link"
generations 2 && mkfifo "$profiles/system-3-link"
run "a generation is a pipe" 3 "nix/var/nix/profiles/system-3-link: $link"
generations 2 && echo junk >"$profiles/system-3-link"
run "a generation is no node" 3 "nix/var/nix/profiles/system-3-link: not a node file"

# A rehearsal looks at no root.
command=rehearse
argument=1
fresh && rm -rf "$tree" && ln -s "$work/outside/tree" "$tree" && mkfifo "$work/root/manager"
run "a rehearsal, whatever stands in the root" 0
place= run "a rehearsal without a root" 0
argument=01
run "a rehearsal of a number with a zero before it" 1
command=test
argument=nix/store/a-sys

# What is written can be read again, however long it is. What no host wrote isn't read to its end.
seventy() {
    head -c 70000000 /dev/zero | tr '\0' x
    echo
}
fresh && { printf 'loaded ' && seventy; } >"$work/root/manager"
run "a manager's state of seventy megabytes" 0
run "the same state again" 0
fresh && mkdir -p "$lists" && { printf 'F 0644 0 0\n' && seventy; } >"$lists/start-list"
refused "a list of seventy megabytes" "too many: bytes 70000001"
fresh && mkdir -p "$lists" && { printf 'F 0644 0 0\n' && seventy; } >"$lists/owed-log"
refused "a log of seventy megabytes" "too many: bytes 70000001"
fresh && { printf 'loaded \n' && seventy; } >"$work/root/manager"
run "seventy megabytes that are no manager's state" 3 "manager: not a manager's state"
# How much address space a program may take, in KiB.
space=$((2 * 1024 * 1024))
short_of_memory() {
    (ulimit -v $space && "$@")
}
fresh && printf 'loaded ' >"$work/root/manager" && truncate -s 20G "$work/root/manager"
short_of_memory run "twenty gigabytes of a manager's state, in less memory" 5 || failed=1
fresh && truncate -s 20G "$tree/nix/store/a-sys/nixos-version"
short_of_memory run "a node of twenty gigabytes, in less memory" 5 || failed=1

# A mask that takes all away leaves its owner what the next run needs.
fresh
(umask 0777 && run "a switch under a mask that takes all away" 0) || failed=1
run "the same switch under another mask" 0
if [ -z "$(find "$work/root/tree/etc" "$work/root/tree/run" "$work/root/manager" \( -type f ! -perm -600 -o -type d ! -perm -700 \) -print)" ]; then
    judge "its owner can read and write each file of it" ok
else
    judge "its owner can read and write each file of it" "can't"
fi

# One run goes on at a time.
if [ -n "$(type -P flock)" ]; then
    fresh
    exec 9<"$work/root" && flock 9
    run "a root in which another run goes on" 3 "another run goes on here"
    command=none
    run "words without a command there" 1
    command=test
    exec 9<&-
    run "the same root when that run has ended" 0
else
    echo "flock isn't there: the rows on two runs at once are left out"
fi

# A full output, and one that is closed.
if [ -c /dev/full ]; then
    fresh
    output=/dev/full
    run "a full output" 6
    output=$work/stdout
    [ ! -e "$tree/run" ] || judge "nothing is changed then" "there are changes"
fi

# swap PLACE FOLDER: puts a link to a folder in the place of another one, which is kept in the root.
swap() {
    mv "$1" "$work/root/away" && ln -s "$2" "$1"
}

# run_swapped NAME STATUS PLACE FOLDER FAULT: makes a boot in whose first move the program waits, while a folder is swapped.
run_swapped() {
    (await test -e "$profiles/system-1-link" && swap "$3" "$4") &
    run_with rename:delay_exit=1500000:when=1 "$1" "$2" "$5"
    wait $!
}

if [ -n "$trace" ]; then
    command=boot
    fresh
    run_swapped "the profiles' folder becomes a link while it is written in" 3 "$profiles" "$work/outside/var/nix/profiles" "nix/var/nix/profiles: $link"
    fresh
    run_swapped "the folder above it becomes a link" 3 "$tree/nix/var/nix" "$work/outside/var/nix" "nix/var/nix/profiles: another folder than before"
    fresh
    run_swapped "the stage's folder becomes a link" 3 "$tree/nix/var" "$work/outside/var" "nix/var: $link"
    fresh && mkdir -p "$work/outside/tree/nix/var/nix/profiles"
    run_swapped "a folder above all that is written becomes a link" 3 "$tree/nix" "$work/outside/tree/nix" "nix/var: another folder than before"
    fresh
    run_with rename:error=EXDEV:when=1 "a place on another file system" 3 "nix/var/nix/profiles/system-1-link: on another file system"
    run "the same place when it is on the same one" 0
    fresh
    run_with write:error=ENOSPC:when=2 "no space for the first file" 3 "nix/var/nixswitch.stage: no space left"
    fresh
    run_with fdatasync:error=ENOSPC:when=2 "no space as the second file is synced" 3 "nix/var/nixswitch.stage: no space left"
    if [ -e "$profiles/system-1-link" ] && [ ! -e "$profiles/system" ]; then
        judge "that file doesn't take its place" ok
    else
        judge "that file doesn't take its place" "it does"
    fi
    run "the same root when there is space" 0
    grep -q '^[0-9 ]*fdatasync' "$work/opened" || judge "what it syncs" "nothing"

    # What comes is appended to a log that stands: `number` is the write that does.
    command=test
    owing && printf 'F 0644 0 0\nstart 0\nend\n' >"$lists/owed-log"
    run "a log that is appended to" 0
    number=$(grep '^[0-9 ]*write(' "$work/opened" | grep -n -m 1 'owed-log>' | cut -d : -f 1)
    for call in write fdatasync; do
        owing && printf 'F 0644 0 0\nstart 0\nend\n' >"$lists/owed-log"
        [ $call = write ] || number=1
        run_with $call:error=ENOSPC:when="$number" "no space for what is appended to the log, by $call" 3 "run/nixos/owed-log: no space left"
        ! grep -q '^stop' "$work/root/manager" || judge "nothing is stopped then" "something is"
        run_owing "the same root when there is space"
    done
    command=boot
    fresh
    NIXOS_NO_SYNC=1 run "a plain root without syncs" 0
    ! grep 'sync(' "$work/opened" || judge "what it syncs then" "something"

    # A folder that planning has looked at is swapped once the report is out, and what is below it wasn't there yet.
    command=test
    fresh && mkdir -p "$units" "$tree/etc/systemd" "$work/outside/systemd/system"
    printf 'F 0644 0 0\n' | tee "$units/a.service" >"$tree/etc/systemd/other"
    : >"$output"
    (await test -s "$output" && swap "$tree/etc/systemd" "$work/outside/systemd") &
    run_with write:delay_exit=1500000:when=1 "a folder above the one that is written to becomes a link" 3 "etc/systemd: $link"
    wait $!

    command=dry-activate
    fresh && mkdir -p "$units" && printf 'F 0644 0 0\n' >"$units/a.service"
    (await grep -q 'getdents64.*system>' "$work/opened" && rm "$units/a.service" && mkfifo "$units/a.service") &
    run_with getdents64:delay_enter=200000 "a unit file becomes a pipe once its folder was opened" 3 "nix/store/a-sys/etc/systemd/system/a.service: $link"
    wait $!

    command=test
    fresh && mkdir -p "$units" && printf 'F 0644 0 0\n' >"$units/a.service"
    run_with write:error=EINTR:when=1+2 "each other write is interrupted" 0
    # The loader's own calls that open something aren't interrupted: `first` is the program's first one.
    fresh && mkdir -p "$units" && printf 'F 0644 0 0\n' >"$units/a.service"
    strace -o "$work/calls" -e trace=openat "$program" "$work/root" dry-activate nix/store/a-sys >"$work/stdout" 2>"$work/stderr"
    first=$(grep -nF "$work/root" "$work/calls" | head -n 1 | cut -d : -f 1)
    for start in "$first" $((first + 1)); do
        run_with openat:error=EINTR:when="$start+2" "each other call that opens something is interrupted, from $((start - first))" 0
    done

    # Want of memory that lasts: the program gets none from its first call for it on, or from the second on. (A later
    # brk that fails gives its old end in Linux, which can't be had so.)
    fresh
    told=0
    verdict=ok
    strace -o "$work/calls" -e trace=mmap "$program" "$work/root" dry-activate nix/store/a-sys >"$work/stdout" 2>"$work/stderr"
    maps=$(grep -c '^mmap' "$work/calls")
    for call in 1 2; do
        strace -o "$work/calls" -e trace=brk,mmap -e inject=brk:error=ENOMEM:when="$call+" \
            -e inject=mmap:error=ENOMEM:when="$((maps + 1))+" \
            "$program" "$work/root" dry-activate nix/store/a-sys >"$work/stdout" 2>"$work/stderr"
        [ $? = 5 ] || continue
        told=$((told + 1))
        [ "$(cat "$work/stderr")" = "no memory" ] || verdict="said: $(cat "$work/stderr")"
    done
    [ $told -gt 0 ] || verdict="memory was never wanting"
    judge "memory is wanting, to the end" "$verdict"
else
    echo "without strace the rows on swapped folders and failing calls are left out"
fi

if [ "$(id -u)" != 0 ]; then
    fresh && chmod 000 "$tree/nix/store/a-sys/nixos-version"
    run "a leaf without leave to read" 3 "nix/store/a-sys/nixos-version: no permission"
    fresh && chmod 555 "$tree/nix"
    run "a folder without leave to write" 3 "nix/var: no permission"
else
    echo "run as root: the rows on permissions are left out"
fi

exit $failed
