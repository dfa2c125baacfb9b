#!/bin/bash
# Has pwck and grpck read the account tables that a switch leaves, of the example and of made worlds.
#
# bench/tables.sh [PROGRAM [WORLDS]]
#
# Each root is exported by tools/export before and after a switch, and both tools look at both. Each complaint of the end
# that the first world hadn't is a line; that a home or a shell isn't there is none, as a root has neither. In a made world
# (60) two systems declare users and groups drawn by a number, with members and with mutableUsers or without; by hand there
# are further users, one of them in a group that the new system may drop.
#
# One complaint is known: a row that stays keeps a group that went (docs/DIFFERENCES.md). It is counted. Any other ends it
# with 1, and so does a switch that isn't carried out. Needs root, as pwck -R changes its root. It is no part of the gate.
. "$(dirname "$0")/common.sh"
find_program "$@"
worlds=${2:-60}
failed=0
known=0
if [ "$(id -u)" != 0 ] || [ -z "$(PATH=$PATH:/usr/sbin:/sbin command -v pwck)" ]; then
    echo "left out: pwck and grpck, and root, are needed"
    exit 0
fi
PATH=$PATH:/usr/sbin:/sbin

# complaints FILE: what both tools say of the tables of the root, a line each.
complaints() {
    rm -rf "$work/real"
    if ! "$here/tools/export" "$root" "$work/real" >"$work/stdout" 2>"$work/stderr"; then
        echo "no export: $(cat "$work/stderr")"
        failed=1
    fi
    { pwck -r -R "$work/real"; grpck -r -R "$work/real"; } 2>&1 |
        grep -v -e ': no changes$' -e 'does not exist$' -e '? No$' | sort -u >"$1"
}

# judge NAME SYSTEM: switches the root to a system, and tells what the tools say of its end and not of its beginning.
judge() {
    local status
    complaints "$work/first"
    "$program" "$root" switch "nix/store/$2" >"$work/stdout" 2>"$work/stderr"
    status=$?
    if [ "$status" != 0 ] && [ "$status" != 4 ]; then
        echo "$1: the switch ends with $status: $(cat "$work/stderr")"
        failed=1
    fi
    complaints "$work/last"
    comm -13 "$work/first" "$work/last" | sed "s/^/$1: /" >"$work/new"
    cat "$work/new"
    known=$((known + $(grep -c -E "user '[a-z0-9]*': no group [0-9]+$" "$work/new")))
    ! grep -q -v -E "user '[a-z0-9]*': no group [0-9]+$" "$work/new" || failed=1
}

# declare_accounts NUMBER SYSTEM: the accounts of one of two systems of a made world.
declare_accounts() {
    mkdir -p "$root/tree/nix/store/$2"
    printf 'F 0644 0 0\n1\n' >"$root/tree/nix/store/$2/nixos-version"
    awk -v number="$1" -v second="$([ "$2" = new-sys ] && echo 1)" '
        function draw(below) { state = (state * 1103515245 + 12345) % 2147483648; return int(state / 65536) % below }
        function is_declared(   in_old, in_new) { in_old = draw(4); in_new = draw(4); return second ? in_new : in_old }
        BEGIN {
            state = number
            for (at = 0; at < 8; at++) if (is_declared()) groups[at]
            for (at = 0; at < 10; at++) if (is_declared()) users[at]
            printf "F 0644 0 0\n{\"mutableUsers\": %s, \"groups\": [{\"name\": \"users\", \"gid\": 100}", number % 3 ? "true" : "false"
            for (at = 0; at < 8; at++) {
                gid = draw(3) ? "" : ", \"gid\": " 300 + at
                member = draw(10)
                if (at in groups) printf ", {\"name\": \"g%d\"%s, \"members\": [%s]}", at, gid, member in users ? "\"u" member "\"" : ""
            }
            printf "], \"users\": [{\"name\": \"root\", \"uid\": 0, \"group\": \"users\"}"
            for (at = 0; at < 10; at++) {
                group = draw(8)
                is_system = draw(2) ? "true" : "false"
                if (at in users)
                    printf ", {\"name\": \"u%d\", \"group\": \"%s\", \"isSystemUser\": %s}", at, group in groups ? "g" group : "users", is_system
            }
            print "]}"
        }' >"$root/tree/nix/store/$2/users-groups.json"
}

# Adds users by hand to the tables of a made world: one in a group of the first system, one in a group of its own.
add_by_hand() {
    local gid
    gid=$(sed -n 's/^g[0-9]:[^:]*:\([0-9]*\):.*/\1/p' "$root/tree/etc/group" | head -n 1)
    printf 'bob:x:2000:%s::/home/bob:/bin/sh\ncarol:x:2001:2001::/home/carol:/bin/sh\n' "${gid:-100}" >>"$root/tree/etc/passwd"
    printf 'carol:x:2001:bob\n' >>"$root/tree/etc/group"
    printf 'bob:!:1::::::\ncarol:!:1::::::\n' >>"$root/tree/etc/shadow"
}

cp -r "$here/crates/nixswitch/data/example" "$root"
judge example web-24.11
for number in $(seq "$worlds"); do
    rm -rf "$root"
    declare_accounts "$number" old-sys
    declare_accounts "$number" new-sys
    if ! "$program" "$root" switch nix/store/old-sys >"$work/stdout" 2>"$work/stderr"; then
        echo "world $number can't be made: $(cat "$work/stderr")"
        failed=1
    fi
    add_by_hand
    judge "world $number" new-sys
done
echo "the example and $worlds worlds: $known rows with a group that went"
exit "$failed"
