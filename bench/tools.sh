#!/bin/bash
# Tries tools/import, tools/export and tools/reboot as a user would, the manual page, the completions and the install.
#
# bench/tools.sh [PROGRAM]
#
# A machine in the form of nixpkgs is made, imported, run dry, switched and exported. Then come machines and roots that are
# odd or hostile: names with each kind of byte, special files, links that lead round or out, long and huge files, nodes that
# are none. Nothing is ever to be written outside the root or the folder that are named, and nothing left out without a
# line on standard error. Where Debian's unit files are there, they are imported too. What it needs of further programs
# (mandoc, fish, strace) is left out where they aren't there, and told. It prints a line for each case that fails, how
# the time grows with the entries, and counts at the end; it ends with 1 where a case fails. It is no part of the gate.
. "$(dirname "$0")/common.sh"
. "$here/bench/made_machine.sh"
find_program "$@"
import=$here/tools/import
export_tree=$here/tools/export
reboot=$here/tools/reboot
passed=0
failed=0

# holds NAME COMMAND..: a case, which holds where the command ends with 0.
holds() {
    local name=$1
    shift
    if "$@" >"$work/case" 2>&1; then
        passed=$((passed + 1))
    else
        failed=$((failed + 1))
        echo "FAILED: $name"
        head -n 20 "$work/case"
    fi
}

# run COMMAND..: runs it, and sets `status`; what it prints is in `out` and `told` of the scratch folder.
run() {
    "$@" >"$work/out" 2>"$work/told"
    status=$?
}

ended() { [ "$status" = "$1" ] || { cat "$work/told" && false; }; }
tells() { grep -q -a -F -e "$1" "$work/told" || { cat "$work/told" && false; }; }
tells_not() { ! grep -a -F -e "$1" "$work/told"; }
out_is() { printf '%s\n' "$@" | diff - "$work/out"; }
node_is() { printf "$2" | cmp - "$root/tree/$1"; }
no_node() { [ ! -e "$root/tree/$1" ]; }
has() { [ -e "$1" ] || [ -L "$1" ]; }
# What stands below a folder, with modes, owners and targets, and the sums of the files.
state() { (cd "$1" && find . -printf '%P %y %m %U %G %s %l\n' | sort && find . -type f -size -64M -print0 | sort -z | xargs -0 -r cksum); }

# A machine with a present system and a new one, as a user meets it.
try_machine() {
    make_toplevel 2 24.11
    new=$top
    make_toplevel 1 24.05
    old=$top
    make_machine_files "$old"
    state "$made" >"$work/before"
    run "$import" "$made$new" new "$root" --here --sysroot "$made" --units "$made/units.txt"
    holds "a machine is imported" ended 0
    holds "what is imported stays as it was" diff "$work/before" <(state "$made")
    holds "a secret that is read is said" tells 'a secret is read, hashedPasswordFile /run/secrets/metrics'
    holds "a secret that isn't there is said" tells 'hashedPasswordFile /run/secrets/none is not there'
    holds "a file that not everybody may read is said" tells 'a secret is read: etc/shadow'
    holds "a password that nobody hashes is said" tells 'user alice: initialPassword is left out'
    holds "aliases are said" tells 'define no unit in nix/store/new: default.target'
    holds "specialisations are said" tells 'specialisations: quiet'
    holds "activation snippets are said" tells 'binsh'
    holds "the state of a slow unit is said" tells 'taken as active, it is activating: slow.service'
    holds "the state of a unit that goes is said" tells 'taken as inactive, it is deactivating: gone.service'
    holds "a line that tells no state is said" tells 'no state of a unit: 1'
    holds "a mask behind a link is one" node_is nix/store/new/etc/systemd/system/masked.service 'L /dev/null\n'
    holds "the root is the owner's alone" [ "$(stat -c %a "$root")" = 700 ]
    holds "the store isn't followed" node_is nix/store/new/kernel "L $(stored linux-6.6)/bzImage\n"
    holds "the secret is the user's password" grep -q -F '"hashedPassword":"$6$a\"\\\u0009$hash"' "$root/tree/nix/store/new/users-groups.json"
    run "$program" "$root" dry-activate nix/store/new
    holds "a dry run of it is carried out" ended 0
    holds "the dry run says what would be done" out_is "from ${old#/}" 'to nix/store/new' \
        'stop getty@tty1.service' 'add group metrics 999' 'add user metrics 999' 'add user web 1001' \
        'restart nginx.service' 'start basic.target' 'start getty@tty1.service' 'start metrics.service' 'start multi-user.target'
    state "$root" >"$work/before"
    run "$import" "$made$new" new "$root" --sysroot "$made"
    holds "a system that is there isn't taken again" ended 1
    run "$import" "$made$new" other "$root" --machine "$made" --sysroot "$made"
    holds "a machine that is there isn't taken again" ended 1
    run "$import" "$made$new" other "$root" --units "$made/units.txt" --sysroot "$made"
    holds "states that are there aren't taken again" ended 1
    holds "the root stays as it was" diff "$work/before" <(state "$root")
    run "$program" "$root" switch nix/store/new
    holds "it is switched to" ended 0
    run "$export_tree" "$root" "$work/real"
    holds "the root is exported" ended 0
    holds "a copy has its mode and owners" [ "$(stat -c %a:%u:%g "$work/real/etc/sudoers")" = "440:$(owned 0 -u):$(owned 1 -g)" ]
    holds "shadow has its mode" [ "$(stat -c %a "$work/real/etc/shadow")" = 600 ]
    holds "a link is one" [ "$(readlink "$work/real/etc/motd")" = /etc/static/motd ]
    holds "a link leads on below the folder" [ -L "$work/real$(readlink "$work/real/etc/static")/motd" ]
    holds "a direct link is one" [ "$(readlink "$work/real/etc/localtime")" = /etc/zoneinfo/Europe/Berlin ]
    holds "the profile leads to the system" [ "$(readlink "$work/real/nix/var/nix/profiles/system-1-link")" = /nix/store/new ]
    holds "the folder is the owner's alone" [ "$(stat -c %a "$work/real")" = 700 ]
    if [ "$(id -u)" = 0 ] && [ -n "$(command -v bootctl)" ] && unshare -m true 2>"$work/none"; then
        holds "bootctl reads the boot menu" [ "$(menu)" = 'title: NixOS (default)' ]
    else
        echo "left out: bootctl and a mount of one's own aren't here"
    fi
    holds "each node is there" [ "$(cd "$root/tree" && find . -type f | sort)" = "$(cd "$work/real" && find . -type f -o -type l | sort)" ]
    run "$export_tree" "$root" "$work/real"
    holds "a folder that isn't empty is refused" ended 1
    rm -rf "$root" "$work/real"
}

# The default entry of the exported boot menu, as bootctl reads it where it stands on a file system of its own.
menu() {
    mkdir -p "$work/esp"
    unshare -m sh -c 'mount -t tmpfs none "$1" && cp -r "$2/." "$1" && SYSTEMD_RELAX_ESP_CHECKS=1 bootctl --esp-path="$1" --no-pager list' \
        sh "$work/esp" "$work/real/boot" 2>"$work/none" | sed -n 's/^ *\(title: NixOS.*(default)\).*/\1/p'
}

# owned ID OPTION: the id, or as another user than root one's own, by this option of id.
owned() { if [ "$(id -u)" = 0 ]; then echo "$1"; else id "$2"; fi; }

# Each system by itself, and a machine whose secrets stay where they are.
try_options() {
    run "$import" "$made$old" old "$root" --sysroot "$made"
    holds "a system alone is imported" ended 0
    run "$import" "$made$new" new "$root" --sysroot "$made"
    holds "a further one is imported beside it" ended 0
    run "$program" "$root" switch nix/store/old
    holds "the first is switched to on an empty machine" ended 0
    run "$program" "$root" dry-activate nix/store/new
    holds "the second is run dry" ended 0
    rm -rf "$root"
    run "$import" "$made$old" old "$root" --sysroot "$made" --current --machine "$made" --no-secrets --units - <"$made/units.txt"
    holds "a machine without its secrets is imported" ended 0
    holds "its shadow is empty" node_is etc/shadow "F 0640 $(id -u) $(id -g)\n"
    holds "that is said" tells 'a secret is left empty: etc/shadow'
    run "$import" "$made$new" new "$root" --sysroot "$made" --no-secrets
    holds "a system without its secrets is imported" tells 'user metrics: a secret is not read'
    rm -rf "$root"
    run "$import" "$made$new" 'a b' "$root" --sysroot "$made"
    holds "a name that is none is refused" ended 1
    run "$import" "$made$new" .. "$root" --sysroot "$made"
    holds "two dots are no name" ended 1
    run "$import" "$made/nowhere" new "$root" --sysroot "$made"
    holds "a system that isn't there is refused" ended 1
    run "$import" / new "$root"
    holds "a folder that is no system is refused" ended 1
    run "$import" "$made$new" new
    holds "two words are no import" ended 1
    run "$import" "$made$new" new "$root" --sysroot "$made" --twice
    holds "another option is refused" ended 1
    holds "nothing is left of a refused import" [ ! -e "$root" ]
    mkdir "$root" "$work/elsewhere"
    ln -s "$work/elsewhere" "$root/tree"
    run "$import" "$made$new" new "$root" --sysroot "$made"
    holds "a root with a link in it is refused" ended 1
    holds "nothing is written by way of it" [ -z "$(ls -A "$work/elsewhere")" ]
    rm "$root/tree"
    mkdir -p "$root/tree/nix"
    ln -s "$work/elsewhere" "$root/tree/nix/store"
    run "$import" "$made$new" new "$root" --sysroot "$made"
    holds "a link deeper in it is refused too" ended 1
    holds "nothing is written by way of that" [ -z "$(ls -A "$work/elsewhere")" ]
    rm -rf "$root"
    mkdir "$root"
    exec 8<"$root"
    flock 8
    run "$import" "$made$new" new "$root" --sysroot "$made"
    holds "a root in which a run goes on is left alone" ended 1
    holds "nothing was made in it" [ -z "$(ls -A "$root")" ]
    exec 8<&-
    rm -rf "$root"
}

# The example root, rebooted as it is and where it is hostile.
try_reboot() {
    local outside=$work/outside
    mkdir "$outside"
    cp -r "$here/crates/nixswitch/data/example" "$root"
    sed -i '/^bad /d' "$root/manager"
    run "$program" "$root" switch nix/store/web-24.11
    holds "the example is switched" ended 0
    state "$root/tree/nix" >"$work/before"
    ln -s "$outside/file" "$root/manager.rebooted"
    mkdir -p "$outside/run" "$root/tree/run/nixos"
    ln -s "$outside/run" "$root/tree/run/nixos/link"
    printf 'L x\n' >"$root/tree/nix/var/nixswitch.stage"
    run "$reboot" "$root"
    holds "a root is rebooted" ended 0
    holds "what lies in run is gone" no_node run
    holds "the stage is gone" no_node nix/var/nixswitch.stage
    holds "no unit is active or has failed" [ -z "$(grep -E '^(active|failed) ' "$root/manager")" ]
    holds "nothing is loaded" [ "$(head -n 1 "$root/manager")" = 'loaded ' ]
    holds "the profile and the store stay" diff "$work/before" <(state "$root/tree/nix")
    holds "nothing outside it is made or removed" [ "$(ls -A "$outside")" = run ]
    run "$program" "$root" start-up
    holds "it starts up" ended 0
    holds "its system runs" node_is run/current-system 'L /nix/store/web-24.11\n'
    exec 8<"$root"
    flock 8
    run "$reboot" "$root"
    holds "a root in which a run goes on isn't rebooted" ended 1
    holds "its system runs still" node_is run/current-system 'L /nix/store/web-24.11\n'
    exec 8<&-
    run "$reboot"
    holds "without a root nothing is rebooted" ended 1
    run "$reboot" "$root" "$root"
    holds "two roots aren't rebooted" ended 1
    run "$reboot" --help
    holds "it tells how it is used" ended 0
    run "$reboot" "$work/nowhere"
    holds "a root that isn't there isn't rebooted" ended 1
    mv "$root/tree" "$outside/tree"
    ln -s "$outside/tree" "$root/tree"
    run "$reboot" "$root"
    holds "a root whose tree is a link isn't rebooted" ended 1
    holds "what it leads to stays" [ -e "$outside/tree/run/current-system" ]
    rm -rf "$root" "$outside"
}

# A system and a machine with odd and hostile entries.
try_hostile() {
    local odd=$work/odd name long
    made=$odd
    mkdir -p "$odd"
    make_toplevel 1 1
    etc=$(readlink "$odd$top/etc")
    units=$(readlink "$odd$etc/systemd/system")
    put "$etc/with blank" a
    put "$etc/-rf" b
    put "$etc/per%cent \\n" c
    put "$etc/quo'te\"\$(touch $work/touched)" d
    put "$etc"/$'line\nfeed' e
    put "$etc"/$'not\xff\xfeutf' f
    put "$etc"/$'es\e[31mcape' g
    put "$etc/umläut/ß" h
    put "$etc/passwd" i
    put "$etc/.clean/x" j
    put "$etc/nul" ''
    printf 'a\0b\r\n\n\xff\0' >"$odd$etc/nul-source"
    point "$etc/nul-copy" "$etc/nul-source"
    put "$etc/nul-copy.mode" 0600
    point "$etc/folder-copy" "$etc/umläut"
    put "$etc/folder-copy.mode" 0644
    put "$etc/odd-mode" k
    put "$etc/odd-mode.mode" rwx
    put "$etc/file-direct" l
    put "$etc/file-direct.mode" direct-symlink
    put "$etc/lonely.mode" 0644
    point "$etc/dangling" /nowhere/at/all
    point "$etc/round" round
    point "$etc"/target $'a\nb'
    point "$etc/long-target" "/$(printf '%4000s' '' | tr ' ' x)"
    mkfifo "$odd$etc/pipe"
    mkdir -p "$odd$etc/hollow/deep"
    point "$units/round.service" /nix/round-a
    point /nix/round-a round-b
    point /nix/round-b round-a
    point "$units/empty.service" "$(stored empty)"
    put "$(stored empty)" ''
    point "$units/far.service" ../../../../../../../../../../far.service
    put /far.service $'[Service]\nExecStart=/far\n'
    point "$units/linked.service.d" "$(stored linked)/etc"
    put "$(stored linked)/etc/one.conf" $'[Unit]\nWants=a.service\n'
    point "$units/up.service.d" ..
    put "$units/service.d/all.conf" $'[Service]\n'
    put "$units/x.target.upholds/y.service" ''
    point "$(stored etc-fstab 1)" /nix/fstab
    rm -f "$odd$(stored etc-fstab 1)"
    point "$(stored etc-fstab 1)" /fstab-of-machine
    put /fstab-of-machine $'/dev/x /x ext4 rw\n'
    make_machine_files "$top"
    put /etc/set-user-id x 4755
    mkfifo "$odd/etc/pipe"
    : >"$odd/etc/huge"
    truncate -s 1T "$odd/etc/huge"
    head -c 3000000 /dev/zero | tr '\0' 'x' >"$odd/etc/long"
    head -c 2000000 /dev/urandom >"$odd/etc/random"
    long=$odd/etc
    for name in $(seq 16); do
        long=$long/$(printf '%250s' "$name" | tr ' ' d)
        mkdir "$long" 2>"$work/none" && : 2>"$work/none" >"$long/f" || break
    done
    state "$odd" 2>"$work/none" >"$work/before"
    run "$import" "$odd$top" odd "$root" --here --sysroot "$odd" --units "$odd/units.txt"
    holds "an odd machine is imported" ended 0
    holds "it stays as it was" diff "$work/before" <(state "$odd" 2>"$work/none")
    holds "no name is run" [ ! -e "$work/touched" ]
    holds "no escape reaches the terminal" [ -z "$(tr -d '\n\040-\176\200-\377' <"$work/told")" ]
    for name in 'with blank' '-rf' 'per%cent \n' "quo'te\"\$(touch $work/touched)" $'es\e[31mcape' 'umläut/ß' lonely.mode; do
        holds "an entry with an odd name is there: $name" has "$root/tree/nix/store/odd/etc/$name"
    done
    for name in 'line?feed' 'not' 'etc/passwd' 'etc/.clean/x' folder-copy odd-mode file-direct target pipe hollow/deep 'round.service' \
        'empty.service' 'service.d/all.conf' 'x.target.upholds/y.service' etc/pipe etc/huge; do
        holds "an entry that is left out is told: $name" tells "$name"
    done
    holds "bytes of each kind are copied" node_is nix/store/odd/etc/nul-copy 'F 0444 0 0\na\0b\r\n\n\xff\0'
    holds "a link that leads nowhere is one" node_is nix/store/odd/etc/dangling 'L /nowhere/at/all\n'
    holds "a link that leads round is one" node_is nix/store/odd/etc/systemd/system/round.service 'L /nix/round-a\n'
    holds "an empty unit file is a mask" node_is nix/store/odd/etc/systemd/system/empty.service 'L /dev/null\n'
    holds "a unit behind two dots ends at the sysroot" node_is nix/store/odd/etc/systemd/system/far.service 'F 0444 0 0\n[Service]\nExecStart=/far\n'
    holds "drop-ins in a folder behind a link are there" node_is nix/store/odd/etc/systemd/system/linked.service.d/one.conf 'F 0444 0 0\n[Unit]\nWants=a.service\n'
    holds "the fstab behind two links is there" node_is nix/store/odd/etc/fstab 'F 0444 0 0\n/dev/x /x ext4 rw\n'
    holds "a refused copy has no companion left" no_node nix/store/odd/etc/odd-mode.mode
    holds "a set-user-id bit is there" node_is etc/set-user-id "F 4755 $(id -u) $(id -g)\nx"
    holds "a huge file is empty" [ "$(stat -c %s "$root/tree/etc/huge")" -lt 100 ]
    holds "a long line is copied" cmp <(tail -n +2 "$root/tree/etc/long") "$odd/etc/long"
    holds "random bytes are copied" cmp <(tail -n +2 "$root/tree/etc/random") "$odd/etc/random"
    run "$program" "$root" dry-activate nix/store/odd
    holds "the odd system is run dry" ended 0
    run "$export_tree" "$root" "$work/real"
    holds "the odd root is exported" ended 0
    holds "the machine's files come back as they were" diff <(machine_state "$odd/etc") <(machine_state "$work/real/etc")
    rm -rf "$root" "$work/real"
    made=$work/made
}

# The files and links of a machine that come back from its root as they were.
machine_state() {
    (cd "$1" && find . \( -name huge -o -path ./systemd/system -o -name static \) -prune -o \( -type f -o -type l \) -printf '%P %m %U %G %s %l\n' | sort)
    (cd "$1" && find . \( -name huge -o -path ./systemd/system \) -prune -o -type f -print0 | sort -z | xargs -0 cksum)
}

# Specifications of accounts that are written in other ways.
try_accounts() {
    local spec
    spec=$(stored users-groups.json 1)
    chmod u+w "$made$spec"
    printf '{ "mutableUsers" : true,\n "users" : [ { "name" : "a\\"b\\\\", "passwordFile" : "\\/run//secrets/metrics", "group":"g", "x": {"y": [1, {"z": "}"}]}, "hashedPassword": "old" } ,\n {"name":"c","group":"g","password":"p"} ], "groups" : [ ] }\n' >"$made$spec"
    run "$import" "$made$old" old "$root" --sysroot "$made"
    holds "a specification with blanks is taken" node_is nix/store/old/users-groups.json \
        'F 0444 0 0\n{"mutableUsers":true,"users":[\n{"name":"a\\"b\\\\","group":"g","x":{"y":[1,{"z":"}"}]},"hashedPassword":"$6$a\\"\\\\\\u0009$hash"},\n{"name":"c","group":"g"}],"groups":[]}\n'
    holds "a key that nothing reads is told" tells 'not mapped, x of: a'
    holds "a plain password is told" tells 'user c: password is left out'
    rm -rf "$root"
    printf '{"users":[{"name" "a"}],"groups":[]' >"$made$spec"
    run "$import" "$made$old" old "$root" --sysroot "$made"
    holds "what is no specification is taken as it is" node_is nix/store/old/users-groups.json 'F 0444 0 0\n{"users":[{"name" "a"}],"groups":[]'
    holds "that is told" tells 'taken as it is'
    run "$program" "$root" dry-activate nix/store/old
    holds "nixswitch refuses it" tells 'users specification: not JSON'
    rm -rf "$root" "$made$old/activate"
    run "$import" "$made$old" old "$root" --sysroot "$made"
    holds "a system without an activate script is told" tells 'no accounts'
    rm -rf "$root"
}

# Roots with nodes that are none, and folders that aren't written to.
try_export() {
    mkdir -p "$root/tree/a/b" "$root/tree/c" "$root/tree/empty" "$work/elsewhere"
    printf 'L /x\n' >"$root/tree/a/link"
    printf 'L %s\n' "$(printf '%300s' '' | tr ' ' y)" >"$root/tree/a/b/$(printf '%200s' '' | tr ' ' n)"
    printf 'F 4755 7 8\n\0\n\n' >"$root/tree/a/file"
    printf 'F 0000 0 0\n' >"$root/tree/c/none"
    head -c 3000000 /dev/urandom >"$work/random"
    { printf 'F 0644 0 0\n' && cat "$work/random"; } >"$root/tree/c/long"
    cp "$root/tree/c/long" "$root/tree/c/lo'ng \"\$(x)"
    state "$root" >"$work/before"
    run "$export_tree" "$root" "$work/real"
    holds "a root is exported" ended 0
    holds "it stays as it was" diff "$work/before" <(state "$root")
    holds "a long target is whole" [ "$(readlink "$work/real/a/b/$(printf '%200s' '' | tr ' ' n)")" = "$(printf '%300s' '' | tr ' ' y)" ]
    holds "modes and owners are set" [ "$(stat -c %a:%u:%g "$work/real/a/file")" = "4755:$(owned 7 -u):$(owned 8 -g)" ]
    holds "the bytes are the node's" cmp "$work/real/a/file" <(printf '\0\n\n')
    holds "a long file is whole" cmp "$work/real/c/long" "$work/random"
    holds "a long file with a quote in its name is whole" cmp "$work/real/c/lo'ng \"\$(x)" "$work/random"
    holds "an empty file is empty" [ "$(stat -c %a:%s "$work/real/c/none")" = 0:0 ]
    rm -rf "$work/real"
    printf 'X' >"$root/tree/bad tag"
    printf 'F 644 0 0\n' >"$root/tree/bad mode"
    printf 'F 0644 00 0\n' >"$root/tree/bad uid"
    printf 'F 0644 0 4294967296\n' >"$root/tree/bad gid"
    printf 'F 0644 0 0' >"$root/tree/no line"
    printf 'L /x' >"$root/tree/no feed"
    printf 'L /x\n\n' >"$root/tree/more"
    printf 'L \n' >"$root/tree/no target"
    printf 'L a\0b\n' >"$root/tree/nul"
    printf 'L %s\n' "$(printf '%4097s' '' | tr ' ' y)" >"$root/tree/long target"
    : >"$root/tree/nothing"
    printf 'L /x\n' >"$root/tree/"$'line\nfeed'
    printf 'L /x\n' >"$root/tree/"$'no\xffutf'
    head -c 3000000 /dev/zero >"$root/tree/zeros"
    ln -s "$work/elsewhere" "$root/tree/out"
    mkfifo "$root/tree/pipe"
    mkdir -p "$root/tree/nix/var"
    printf 'F 0644 0 0\nx' >"$root/tree/nix/var/nixswitch.stage"
    run "$export_tree" "$root" "$work/real"
    holds "nodes that are none end it with 1" ended 1
    for name in 'bad tag' 'bad mode' 'bad uid' 'bad gid' 'no line' 'no feed' more 'no target' nul 'long target' nothing 'line?feed' zeros out pipe; do
        holds "a node that is none is told: $name" tells ": $name"
        holds "a node that is none isn't written: $name" [ ! -e "$work/real/$name" ]
    done
    holds "the others are written" cmp "$work/real/c/long" "$work/random"
    holds "the stage isn't" [ ! -e "$work/real/nix/var/nixswitch.stage" ]
    holds "nothing is written elsewhere" [ -z "$(ls -A "$work/elsewhere")" ]
    run "$export_tree" "$root" "$root/real"
    holds "a folder in the root is refused" ended 1
    ln -s "$work/elsewhere" "$work/link"
    run "$export_tree" "$root" "$work/link"
    holds "a folder behind a link is refused" ended 1
    run "$export_tree" "$work/none-such" "$work/other"
    holds "a root that isn't there is refused" ended 1
    mkdir -p "$work/elsewhere/full"
    run "$export_tree" "$root" "$work/elsewhere"
    holds "a folder with an empty folder in it isn't empty" ended 1
    run "$export_tree" "$root"
    holds "one word is no export" ended 1
    rm -rf "$root" "$work/real"
}

# Those lines of the input of which the import said nothing.
untold() {
    local place
    while read -r place; do
        grep -q -F "may not be read: $place" "$work/told-of-import" || echo "$place"
    done
}

# The unit files that a Debian has, as a system of their own.
try_debian() {
    if [ ! -e /lib/systemd/system/multi-user.target ]; then
        echo "left out: no unit files of Debian are here"
        return
    fi
    mkdir -p "$work/debian/etc/systemd"
    echo 12 >"$work/debian/nixos-version"
    ln -s /lib/systemd/system "$work/debian/etc/systemd/system"
    run "$import" "$work/debian" debian "$root" --units - <<<'multi-user.target loaded active active Multi-User'
    holds "Debian's units are imported" ended 0
    run "$program" "$root" switch nix/store/debian
    holds "Debian's units are switched to" ended 0
    run "$export_tree" "$root" "$work/real"
    holds "they are exported" ended 0
    holds "a unit is as Debian has it" cmp "$work/real/nix/store/debian/etc/systemd/system/multi-user.target" /lib/systemd/system/multi-user.target
    rm -rf "$root" "$work/real"
    run "$import" "$work/debian" debian "$root" --current --machine /
    holds "this machine's files are imported" ended 0
    mv "$work/told" "$work/told-of-import"
    run "$export_tree" "$root" "$work/real"
    holds "this machine's files are exported" ended 0
    if [ "$(id -u)" = 0 ]; then
        holds "they are as they were" diff <(machine_state /etc) <(machine_state "$work/real/etc")
    else
        holds "what may not be read is told" [ -z "$(find /etc -type f ! -readable -printf 'etc/%P\n' 2>"$work/none" | untold)" ]
    fi
    rm -rf "$root" "$work/real"
}

# time_entries COUNT: tells the processor time of an import and an export of a system with so many links and a tenth as many
# units, all of which have to come back.
time_entries() {
    local many=$work/many-$1 imported exported
    mkdir -p "$many/etc/app" "$many/etc/systemd/system"
    echo 1 >"$many/nixos-version"
    seq "$1" | sed 's,^,/nix/store/x/,' | (cd "$many/etc/app" && xargs ln -s -t .)
    seq $(($1 / 10)) | awk -v at="$many/etc/systemd/system" '{ file = at "/u" $1 ".service"; print "[Service]\nExecStart=/bin/u" $1 >file; close(file) }'
    imported=$(processor "$import" "$many" many "$root")
    exported=$(processor "$export_tree" "$root" "$work/real")
    holds "$1 entries come back" diff -r --no-dereference "$many" "$work/real/nix/store/many"
    echo "$1 links and $(($1 / 10)) units, milliseconds of processor time: import $imported, export $exported"
    rm -rf "$root" "$work/real" "$many"
}

# typed LINE: the words that bash hands a program of this name when this line is typed, in which a tab completes.
typed() {
    {
        printf 'PS1=; nixswitch() { printf "<%%s>" "$@"; echo; }; . %q; cd %q\n' "$here/completion/nixswitch.bash" "$work"
        sleep 0.5
        printf "$1\n"
        sleep 1
        echo exit
    } | TERM=dumb script -qec 'bash --norc --noprofile -i' /dev/null | tr -d '\r' | grep '^<'
}

# fished LINE: the words by which fish would complete this line.
fished() { (cd "$work" && fish -N -c "source '$here/completion/nixswitch.fish'; complete -C '$1'") | cut -f 1 | tr '\n' ' '; }

# The completions, in a bash at a terminal and in fish.
try_completions() {
    mkdir -p "$work/my root/tree/nix/store/a-sys" "$work/my root/tree/nix/store/b=sys" "$work/my root/tree/nix/store/none"
    touch "$work/my root/tree/nix/store/a-sys/nixos-version" "$work/my root/tree/nix/store/b=sys/nixos-version"
    if script -qec true /dev/null >"$work/none" 2>&1; then
        holds "bash completes a root, a command and a system" [ "$(typed 'nixswitch my\\ ro\t sw\tnix/store/a\t')" = '<my root/><switch><nix/store/a-sys>' ]
        holds "bash completes a quoted root and a slash" [ "$(typed 'nixswitch "my root" dry\t/nix/store/b\t')" = '<my root><dry-activate></nix/store/b=sys>' ]
        holds "bash completes behind an equals sign" [ "$(typed 'nixswitch my\\ root boot nix/store/b=\t')" = '<my root><boot><nix/store/b=sys>' ]
        holds "bash offers no folder that is no system" [ "$(typed 'nixswitch my\\ root test nix/store/n\tx')" = '<my root><test><nix/store/nx>' ]
        holds "bash offers no system for a rollback" [ "$(typed 'nixswitch my\\ root ro\t nix/store/a\tx')" = '<my root><rollback><nix/store/ax>' ]
        holds "bash completes an option" [ "$(typed 'nixswitch --v\t')" = '<--version>' ]
        typed 'nixswitch "$(touch touched)" sw\t\025' >"$work/none"
        holds "bash runs nothing of the line" [ ! -e "$work/touched" ]
    else
        echo "left out: script(1), to type a line, isn't here"
    fi
    if fish -c true 2>"$work/none"; then
        holds "fish completes a root" [ "$(fished 'nixswitch my')" = 'my root/ ' ]
        holds "fish offers the commands" [ "$(fished 'nixswitch my\ root ')" = 'boot collect dry-activate generations rehearse rehearse-jobs rollback start-up switch test ' ]
        holds "fish offers the systems" [ "$(fished 'nixswitch "my root" test ')" = 'nix/store/a-sys nix/store/b=sys ' ]
        holds "fish offers no system for a rollback" [ -z "$(fished 'nixswitch "my root" rollback ')" ]
    else
        echo "left out: fish isn't here"
    fi
}

# The page and the install.
try_install() {
    local place=$work/in/usr
    if [ -n "$(command -v mandoc)" ]; then
        holds "the page has no warning" mandoc -Tlint -W warning "$here/man/nixswitch.8"
    else
        echo "left out: mandoc isn't here"
    fi
    holds "a build of nothing isn't installed" [ -n "$(make -s -C "$here" install PROGRAM="$work/no-such" DESTDIR="$work/in" PREFIX=/usr 2>&1 | grep 'make build')" ]
    holds "it is installed" make -s -C "$here" install PROGRAM="$(realpath "$program")" DESTDIR="$work/in" PREFIX=/usr
    holds "the program runs there" "$place/bin/nixswitch" --version
    holds "the import runs there" "$place/bin/nixswitch-import" --help
    holds "the export runs there" "$place/bin/nixswitch-export" --help
    holds "the page is there" cmp "$place/share/man/man8/nixswitch.8" "$here/man/nixswitch.8"
    holds "the completion is there" cmp "$place/share/bash-completion/completions/nixswitch-import" "$here/completion/nixswitch.bash"
    holds "it is removed" make -s -C "$here" uninstall DESTDIR="$work/in" PREFIX=/usr
    holds "nothing of it is left" [ -z "$(find "$work/in" ! -type d)" ]
}

# Each trial is made with both awks that keep bytes.
for one in gawk mawk; do
    if [ -z "$(command -v "$one")" ]; then
        echo "left out: $one isn't here"
        continue
    fi
    find "$work" -mindepth 1 -maxdepth 1 -exec rm -rf {} +
    mkdir "$work/bin"
    ln -s "$(command -v "$one")" "$work/bin/awk"
    before=$PATH
    PATH=$work/bin:$PATH
    try_machine
    try_options
    try_hostile
    try_accounts
    try_export
    try_debian
    PATH=$before
done
try_completions
try_install
try_reboot
time_entries 5000
time_entries 50000
echo "$passed cases passed, $failed failed"
[ "$failed" = 0 ]
