#!/bin/bash
# Kills the program at each call of a run that changes a file, and at moments taken at random, and lets the next run end it.
#
# bench/kill.sh [PROGRAM [MOMENTS]]
#
# Needs bash 5, awk, the coreutils, findutils, and strace with leave to trace.
#
# An uncut run is traced first, from nine roots: a boot without a profile, a boot with three generations whose profile is
# the second and whose boot menu is of the second and of one that is gone, a test of the example root, which sets its
# accounts, makes its /etc and switches its units, a switch of it, which makes a generation and its boot menu too, a rollback
# of it from the third generation to the second, a switch where a rollback was killed that had recorded its goal, a test where a
# switch that was cut has left a log of what is owed, a test where an older program has left its lists, and a collection
# that keeps the third generation, whose entries go before the links. After each kill of the switch the machine is rebooted too, and
# its start-up killed, rebooted and made again.
# Then each of its calls that change a file or write to standard output is a place for
# the kill, twice: at its entry, where the call has no effect, and after it. As strace kills at an entry only, the kill
# after a call is at the entry of the one that follows. strace counts each kind of call by itself, so a place is named by
# kind and number.
#
# A row passes where the run was killed at its place, the profile then named what it named before
# or, where the command sets it, the new system, a firmware then found a menu that boots (each file of it was as at first or
# as the uncut run leaves it, no generation that stands had lost its entry, and what the boot loader reads first named an
# entry that stands), the next run ended with the uncut run's status, and each file and
# folder but the stage is as the uncut run leaves it: of the journal, which units were stopped, and which
# were reloaded, restarted or started under which definitions. A boot has to put the same output again;
# a switch tells what is left to do. Each place is tried with one kill, and with a second one at the same
# place of the run after it, where that run comes to it.
#
# A rollback that is killed after the removal of its goal has come to its end (its row says `over`): then the files have to be as
# the uncut run leaves them, no second kill is tried, and the next run has to end as a further rollback does. So it has to after
# one that ended before the place of its second kill (`ended`). At any other place it has to go to the same generation.
#
# In every third row of the collection, by turns of one with one kill and of one with two, a switch to the system in use comes after
# the kills and before the next run. Both have to end as after an uncut collection, and the files have to be as they are there: a
# generation that still stands gets its entry back, and goes with the next collection.
#
# Then a switch of the example root appends to a log that stands, in a file that may not grow past a limit (`ulimit -f`), once for each
# number of bytes that are left: what comes first no longer fits is cut short at each of its bytes, be it what is owed or the block by
# which reloads or restarts are taken away. A row passes where that run ended with its fault, the log ends at the limit, and the
# moment and the next run, without a limit, are as they have to be after a kill.
#
# Then a switch of a root of 500 units, 2,000 entries below /etc and 60 users is killed after a time taken at random, below
# that of the uncut run, at least as often as MOMENTS says (60), up to three times in a row on one root. Then a run comes
# to its end, and what it leaves is judged in the same way.
#
# It ends with 1 where a row fails. It is no part of the gate.
. "$(dirname "$0")/common.sh"
find_program "$@"
moments=${2-60}
if ! strace -o "$work/calls" true 2>"$work/stderr"; then
    echo "strace isn't there or may not trace" >&2
    exit 1
fi
tree=$root/tree
profiles=$tree/nix/var/nix/profiles
menu=$tree/boot/loader
recorded=$tree/run/nixos/rollback-goal
log=$tree/run/nixos/owed-log
passed=0
failed=0

# A root with the system to boot and no profile.
make_empty() {
    words=(boot nix/store/a-sys)
    goal=/nix/store/a-sys
    rm -rf "$root"
    mkdir -p "$tree/nix/store/a-sys"
    printf 'F 0644 0 0\n24.05\n' >"$tree/nix/store/a-sys/nixos-version"
}

# A root with three generations, of which the profile names the second. In its boot menu are an entry of the second with
# another text, one of a generation that is gone and one of another system.
make_three() {
    local number
    make_empty
    mkdir -p "$menu/entries"
    printf 'F 0644 0 0\ntitle NixOS\nlinux /nix/store/s-2/kernel\n' >"$menu/entries/nixos-generation-2.conf"
    printf 'F 0644 0 0\ntitle NixOS\nlinux /nix/store/s-7/kernel\n' >"$menu/entries/nixos-generation-7.conf"
    printf 'F 0644 0 0\ntitle Other\n' >"$menu/entries/other.conf"
    printf 'F 0644 0 0\ndefault nixos-generation-2.conf\n' >"$menu/loader.conf"
    mkdir -p "$profiles"
    for number in 1 2 3; do
        printf 'L /nix/store/s-%d\n' $number >"$profiles/system-$number-link"
    done
    printf 'L system-2-link\n' >"$profiles/system"
}

# The example root, and a test, which leaves the profile as it is.
make_example() {
    words=(test nix/store/web-24.11)
    goal=none
    rm -rf "$root"
    cp -r "$here/crates/nixswitch/data/example" "$root"
}

# The example root, and a switch, which makes a generation first.
make_switch() {
    make_example
    words=(switch nix/store/web-24.11)
    goal=/nix/store/web-24.11
}

# The example root with a log that a switch which was cut has left, and a test. By the log alone a unit waits for a restart.
make_logged() {
    make_example
    mkdir -p "$tree/run/nixos"
    printf 'F 0644 0 0\nstart 1\nweb.socket\nend\nrestart 1\nsshd.service\nend\nreload 0\nend\n' >"$log"
}

# The same with the lists of an older program in place of a log.
make_listed() {
    make_example
    mkdir -p "$tree/run/nixos"
    printf 'F 0644 0 0\nweb.socket\n' >"$tree/run/nixos/start-list"
    printf 'F 0644 0 0\nsshd.service\n' >"$tree/run/nixos/restart-list"
}

# How long a file may become in the runs of `make_full`, in KiB. No other file of theirs becomes so long.
limit=8

# The example root, and a switch, where a log stands that has so many bytes less than the limit: make_full BYTES. By its last block a unit
# waits for a restart. Before it stand blocks without names, of 12 and of 13 bytes.
make_full() {
    local last=$'restart 1\nsshd.service\nend\n'
    make_switch
    mkdir -p "$tree/run/nixos"
    {
        printf 'F 0644 0 0\n'
        awk -v size=$((limit * 1024 - $1 - 11 - ${#last})) 'BEGIN {
            for (number = 0; number < size % 12; number++) print "reload 0\nend"
            for (number = 0; number < int(size / 12) - size % 12; number++) print "start 0\nend"
        }'
        printf '%s' "$last"
    } >"$log"
}

# Keeps the example root with three generations, of which the first and the third are of the new system and the second of the
# old one, and the third is in use.
keep_third() {
    local system
    make_example
    for system in web-24.11 web-24.05 web-24.11; do
        "$program" "$root" switch nix/store/$system >"$work/stdout" 2>"$work/stderr"
    done
    rm -rf "$work/third"
    cp -r "$root" "$work/third"
}

# That root, and a rollback, which goes to the second generation.
make_rollback() {
    words=(rollback)
    goal=/nix/store/web-24.05
    rm -rf "$root"
    cp -r "$work/third" "$root"
}

# That root, where a rollback has recorded its goal and was killed then, and a switch to the system in use, which keeps its
# generation and removes the goal.
make_recorded() {
    make_rollback
    printf 'F 0644 0 0\n2\n' >"$recorded"
    words=(switch nix/store/web-24.11)
    goal=/nix/store/web-24.11
}

# That root, and a collection that keeps the third generation, which is in use, and its system.
make_collected() {
    make_rollback
    words=(collect 1)
    goal=/nix/store/web-24.11
}

# Runs the command of the root, by way of the words given.
carry() {
    "$@" "$program" "$root" "${words[@]}" >"$work/stdout" 2>"$work/stderr"
}

# Runs the command up to the call of this kind and number, and says whether it was killed there.
killed_run() {
    { carry strace -f -o "$work/calls" --inject="$1:signal=KILL:when=$2"; } 2>"$work/shell"
    [ $? = 137 ] && [ "$(grep -c "^[0-9]* *$1(" "$work/calls")" = "$2" ]
}

# The number of calls in the last trace.
call_count() {
    grep -c '^[0-9]* *[a-z_0-9]*(' "$work/calls"
}

# The manager's file, where there is one. Of the journal, each unit that was stopped stands once, and so does each
# that was called in another way, with the definitions.
manager() {
    [ -f "$root/manager" ] || return 0
    awk '
        $1 == "stop" { print "stopped " $2; next }
        $1 ~ /^(reload|restart|start)$/ { print "called " $2 " " $3; next }
        { print }
    ' "$root/manager" | sort -u
}

# Each folder and each file with its text, without the stage.
files() {
    (cd "$root" &&
        find . -path ./tree/nix/var/nixswitch.stage -prune -o -printf '%y %p %l\n' | sort &&
        find . -path ./tree/nix/var/nixswitch.stage -prune -o -path ./manager -prune -o -type f -print0 |
        sort -z | xargs -0 tail -v -c +1)
    manager
}

# The store path that the profile names, or `none`, or `broken` where it names no generation.
profile_system() {
    local link
    if [ ! -e "$profiles/system" ]; then
        echo none
        return
    fi
    link=$(sed -n 's/^L \(system-[1-9][0-9]*-link\)$/\1/p' "$profiles/system")
    if [ -n "$link" ] && [ -f "$profiles/$link" ]; then
        sed 's/^L //' "$profiles/$link"
    else
        echo broken
    fi
}

# Lists the places of the traced run, a line each: the kind and the number of the call at whose
# entry the kill comes, its number among all calls, and what the place is.
places() {
    awk -v root="$root/" '
        # What a call is on, as a word.
        function subject(call) {
            if (call ~ /^write\(1</)
                return "standard output"
            gsub(root, "", call)
            gsub(/AT_FDCWD<[^>]*>/, "", call)
            sub(/^[^"<]*["<]/, "", call)
            if (match(call, /", "/))
                call = substr(call, 1, RSTART - 1) " to " substr(call, RSTART + RLENGTH)
            sub(/[">].*/, "", call)
            return call
        }
        function is_place(kind, call) {
            if (call ~ /^p?writev?[0-9]*\([12]</)
                return call ~ /^write\(1</
            if (!index(call, root))
                return 0
            if (kind ~ /^open/)
                return call ~ /O_(WRONLY|RDWR|CREAT|TRUNC)/
            return kind ~ /^(p?write|creat|f?truncate|fallocate|mk|rename|link|symlink|unlink|rmdir|[fl]?ch(mod|own)|u?time|futime|[fl]?setxattr)/
        }
        { sub(/^[0-9]+ +/, "") }
        !/^[a-z_0-9]+\(/ { next }
        {
            kind = $0
            sub(/\(.*/, "", kind)
            number[kind]++
            calls++
            if (place != "")
                print kind, number[kind], calls, "after " place
            place = ""
            if (is_place(kind, $0)) {
                place = kind " " subject($0)
                print kind, number[kind], calls, "before " place
            }
        }
    ' "$work/calls"
}

# note NAME VERDICT: counts a row and prints it.
note() {
    if [ "$2" = ok ]; then
        passed=$((passed + 1))
    else
        failed=$((failed + 1))
    fi
    printf '%-101s %s\n' "$1" "$2"
}

# keep_menu NAME: keeps a copy of the boot menu as it is, or of an empty one.
keep_menu() {
    rm -rf "${work:?}/$1"
    mkdir -p "$work/$1"
    [ ! -d "$menu" ] || cp -r "$menu/." "$work/$1"
}

# Sets `verdict` where a file of the boot menu is neither the one at first nor the last one, where a generation that stands
# has lost its entry, or where what the boot loader reads first names no entry or, as the last one, another system.
judge_menu() {
    local file name
    if [ -d "$menu" ]; then
        while read -r file; do
            cmp -s "$menu/$file" "$work/first/$file" || cmp -s "$menu/$file" "$work/last/$file" || verdict="the menu has another $file"
        done < <(cd "$menu" && find . -type f)
    fi
    while read -r file; do
        name=${file##*/nixos-generation-}
        if [ "${words[0]}" = collect ]; then
            [ -f "$profiles/system-${name%.conf}-link" ] || [ ! -f "$menu/$file" ] || verdict="$file has outlasted its generation"
        else
            [ ! -f "$profiles/system-${name%.conf}-link" ] || [ -f "$menu/$file" ] || verdict="the menu has lost $file"
        fi
    done < <(cd "$work/first" && find . -name 'nixos-generation-*.conf')
    [ -f "$menu/loader.conf" ] || return
    [ -f "$menu/entries/$(sed -n 's/^default //p' "$menu/loader.conf")" ] || verdict='the boot loader boots no entry'
    cmp -s "$menu/loader.conf" "$work/first/loader.conf" || [ "$(profile_system)" = "$goal" ] || verdict='the boot loader goes before the profile'
}

# Sets `verdict` where the profile names neither what it named before nor what the command leads it to, or where the boot
# menu doesn't boot.
judge_moment() {
    local now
    now=$(profile_system)
    [ "$now" = "$was" ] || [ "$now" = "$goal" ] || verdict="the profile names $now"
    judge_menu
}

# Says whether a rollback has come to its end: all is as the uncut run leaves it.
is_back() {
    [ "${words[0]}" = rollback ] && [ ! -e "$recorded" ] && [ "$(files)" = "$final" ]
}

# A switch to the system in use, after a collection that was killed or has come to its end.
cross() {
    "$program" "$root" switch "${goal#/}" >"$work/stdout" 2>"$work/stderr"
}

# Sets `crossed` and `cross_ends` to what is left and how the switch ends where a switch and a collection follow an uncut one.
go_across() {
    cross
    cross_ends=$?
    carry
    [ $? = "$ends" ] || note 'a collection after a switch' "went wrong: $(cat "$work/stderr")"
    crossed=$(files)
    collections=0
}

# row NAME KIND NUMBER CALLS TRIES: tries to kill that many runs at a place, ends the next one, and
# judges. The first must be killed, at the call with this number among all: where it isn't, as may be on a machine that is
# busy, the row begins anew, twice at most.
row() {
    local verdict=ok kills=0 try hit status anew=2 left=$final wanted=$ends note=
    "$make"
    for ((try = 1; try <= $5; try++)); do
        hit=
        if killed_run "$2" "$3"; then
            kills=$((kills + 1)) hit=yes
        fi
        if [ $try = 1 ] && { [ $kills = 0 ] || [ "$(call_count)" != "$4" ]; }; then
            if [ $anew != 0 ]; then
                anew=$((anew - 1)) try=0 kills=0
                "$make"
                continue
            fi
            verdict='was not killed there'
        fi
        judge_moment
        if is_back; then
            left=$further wanted=$further_ends note=', ended'
            [ -z "$hit" ] || { note=', over' && backs=$((backs + 1)); }
            break
        fi
    done
    if [ "${words[0]}" = collect ] && [ $((++collections % 3)) = 0 ]; then
        cross
        status=$?
        [ $status = "$cross_ends" ] || verdict="a switch ends with $status: $(cat "$work/stderr")"
        judge_menu
        left=$crossed note=', a switch'
    fi
    carry
    status=$?
    [ "${words[0]}" != boot ] || cmp -s "$work/stdout" "$work/output" || verdict='the next run has another output'
    [ "$(files)" = "$left" ] || verdict='the next run leaves other files'
    [ $status = "$wanted" ] || verdict="the next run ends with $status: $(cat "$work/stderr")"
    note "$1, kills: $kills of $5$note" "$verdict"
}

# root_rows NAME MAKE STATUS: the rows of one root, whose uncut run ends with this status.
root_rows() {
    local kind number calls place
    make=$2
    "$make"
    was=$(profile_system)
    keep_menu first
    carry strace -f -y -o "$work/calls"
    ends=$?
    keep_menu last
    if [ $ends != "$3" ] || [ "$(profile_system)" != "$goal" ]; then
        note "$1: the uncut run" "went wrong: $(cat "$work/stderr")"
        return
    fi
    final=$(files)
    cp "$work/stdout" "$work/output"
    places >"$work/places"
    [ "${words[0]}" != rollback ] || go_further
    [ "${words[0]}" != collect ] || go_across
    echo "$1: the profile names $was, $(wc -l <"$work/places") places"
    backs=0
    while read -r kind number calls place; do
        row "$place" "$kind" "$number" "$calls" 1
        row "$place" "$kind" "$number" "$calls" 2
    done <"$work/places"
    [ "${words[0]}" != rollback ] || judge_backs
}

# The accounts and what stands below /etc.
activated() {
    (cd "$tree" && find etc var/lib/nixos -printf '%y %p %l\n' | sort &&
        find etc var/lib/nixos -type f -print0 | sort -z | xargs -0 tail -v -c +1)
}

# Starts the rebooted machine of the root up, by way of the words given.
start_up() {
    "$@" "$program" "$root" start-up >"$work/stdout" 2>"$work/stderr"
}

# reboot_row NAME KIND NUMBER RENAME: a run is killed at a place and the machine rebooted. The start-up is killed as it makes
# its rename of this number, where it makes so many, the machine rebooted again where that is even, and then it comes to its
# end: it is refused where no profile is there, and else leaves the accounts and the /etc of the uncut run.
reboot_row() {
    local verdict=ok booted status wanted=4
    "$make"
    killed_run "$2" "$3"
    "$here/tools/reboot" "$root"
    booted=$(profile_system)
    { start_up strace -f -o "$work/calls" --inject="/^rename:signal=KILL:when=$4"; } 2>"$work/shell"
    [ $(($4 % 2)) = 1 ] || "$here/tools/reboot" "$root"
    start_up
    status=$?
    [ "$booted" != none ] || wanted=2
    [ $status = $wanted ] || verdict="the start-up ends with $status: $(cat "$work/stderr")"
    [ "$booted" = none ] || [ "$booted" = "$goal" ] || verdict="the machine boots $booted"
    [ "$booted" = none ] || [ "$(activated)" = "$activated" ] || verdict='accounts or /etc are others than after the uncut run'
    note "$1, a reboot into $booted, the start-up killed at its rename $4" "$verdict"
}

# The rows of the last root in which the machine is rebooted after the kill.
reboot_rows() {
    local kind number calls place rename=0
    "$make"
    carry
    activated=$(activated)
    while read -r kind number calls place; do
        rename=$((rename % 24 + 1))
        reboot_row "$place" "$kind" "$number" $rename
    done <"$work/places"
}

# Sets `further` and `further_ends` to what a further rollback leaves and ends with, which has to go to the first generation.
go_further() {
    carry
    further_ends=$?
    further=$(files)
    if [ "$(cat "$profiles/system")" != 'L system-1-link' ] || [ $further_ends != 4 ]; then
        note 'a further rollback' "went wrong: $(cat "$work/stderr")"
    fi
}

# Judges at how many places a rollback had come to its end: after the removal of its goal, and so at some and not at most.
judge_backs() {
    if [ $backs -gt 0 ] && [ $backs -lt $(($(wc -l <"$work/places") / 2)) ]; then
        note "rows in which a rollback was killed when it had come to its end: $backs" ok
    else
        note "rows in which a rollback was killed when it had come to its end: $backs" 'some are wanted, and not most'
    fi
}

# Runs the command where no file grows past the limit: a write that would is a fault, and no signal ends the program.
carry_limited() {
    (trap '' XFSZ && ulimit -f $limit && carry)
}

# short_row BYTES: the log may grow by so many bytes, which are too few, and the next run ends the switch.
short_row() {
    local verdict=ok status
    [ "$limited" = 3 ] || verdict="it ends with $limited"
    [ "$(cat "$work/stderr")" = $'fault: host\nrun/nixos/owed-log: a file that is too large' ] || verdict="said: $(cat "$work/stderr")"
    [ "$(stat -c %s "$log")" = $((limit * 1024)) ] || verdict="the log has $(stat -c %s "$log") bytes"
    judge_moment
    carry
    status=$?
    [ "$(files)" = "$final" ] || verdict='the next run leaves other files'
    [ $status = $ends ] || verdict="the next run ends with $status: $(cat "$work/stderr")"
    note "the log is full after $1 bytes of what comes" "$verdict"
}

# The rows in which an append is cut short.
short_rows() {
    local bytes limited
    make_full 2048
    was=$(profile_system)
    keep_menu first
    carry
    ends=$?
    keep_menu last
    final=$(files)
    if [ $ends != 4 ] || [ "$(profile_system)" != "$goal" ] || [ -e "$log" ]; then
        note 'a switch where a long log stands: the uncut run' "went wrong: $(cat "$work/stderr")"
        return
    fi
    echo "a switch where a long log stands: the profile names $was"
    for ((bytes = 0; bytes < 1024; bytes++)); do
        make_full $bytes
        carry_limited
        limited=$?
        [ $limited != $ends ] || break
        short_row $bytes
    done
    if [ $bytes -gt 50 ] && [ $bytes -lt 1024 ] && [ "$(files)" = "$final" ]; then
        note "what comes has $bytes bytes" ok
    else
        note "what comes has $bytes bytes" 'some are wanted, with which the end is that of a run without a limit'
    fi
}

# The root of many units, as it was before its switch.
make_many() {
    words=(switch nix/store/new-sys)
    goal=/nix/store/new-sys
    restore_kept
}

# random BELOW: sets `drawn` to a number below this one, the same ones in each run of the script.
RANDOM=1
random() {
    drawn=$(((RANDOM * 32768 + RANDOM) % $1))
}

# killed_after MICROS: runs the command, kills it after this time, and says whether it was killed.
killed_after() {
    { carry timeout -s KILL "$(printf '%d.%06d' $(($1 / 1000000)) $(($1 % 1000000)))"; } 2>"$work/shell"
    [ $? = 137 ]
}

# moment_row KILLS: tries to kill so many runs at random moments, ends the next one, and judges.
moment_row() {
    local verdict=ok kills=0 try status times=''
    make_many
    for ((try = 1; try <= $1; try++)); do
        random "$micros"
        times+=" $drawn"
        if killed_after "$drawn"; then
            kills=$((kills + 1))
        fi
        judge_moment
    done
    carry
    status=$?
    [ "$(files)" = "$final" ] || verdict='the next run leaves other files'
    [ $status = "$ends" ] || verdict="the next run ends with $status: $(cat "$work/stderr")"
    killed=$((killed + kills))
    note "killed after$times microseconds, kills: $kills of $1" "$verdict"
}

# The rows of moments taken at random.
moment_rows() {
    local tries=0 row
    killed=0
    ends=0
    make_whole "$root" 500 2000 60
    keep_root
    make_many
    was=$(profile_system)
    keep_menu first
    quickest 1 carry
    keep_menu last
    final=$(files)
    [ "$(profile_system)" = "$goal" ] || note 'a switch of many units: the uncut run' "went wrong: $(cat "$work/stderr")"
    echo "a switch of 500 units, 2000 entries and 60 users: the profile names $was, $micros microseconds"
    while [ $tries -lt "$moments" ]; do
        random 3
        row=$((drawn + 1))
        moment_row $row
        tries=$((tries + row))
    done
    echo "$killed of $tries runs were killed before their end"
}

echo "strace kills at a call's entry only: a kill after a call is at the entry of the next one"
root_rows 'a boot without a profile' make_empty 0
root_rows 'a boot with three generations, the profile at the second' make_three 0
root_rows 'a test of the example root' make_example 4
root_rows 'a switch of the example root' make_switch 4
reboot_rows
keep_third
root_rows 'a rollback of the example root from its third generation' make_rollback 0
root_rows 'a switch where a rollback has recorded its goal' make_recorded 4
root_rows 'a test where a log of what is owed stands' make_logged 4
root_rows 'a test where lists of an older program stand' make_listed 4
root_rows 'a collection that keeps the third generation' make_collected 0
short_rows
moment_rows
echo "$passed passed, $failed failed"
[ $failed = 0 ]
