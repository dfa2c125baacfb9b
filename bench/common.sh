# What the scripts of this folder begin with. It is read by them and does nothing by itself.
#
# It sets `here` to the checkout, `work` to a scratch folder that goes at the end, and `root` to a place
# for a root folder in it. `find_program` sets `program`, and `quickest` measures. The rest makes roots with two
# systems of many units, further entries below etc and accounts, and counts the calls on them.
#
# The scratch folder is in TMPDIR, and without one in /dev/shm where that is there, so that the times are the program's and
# not those of a slow disk.
# shellcheck shell=bash
set -u
export LC_ALL=C
here=$(cd "$(dirname "$0")/.." && pwd)
if [ -z "${TMPDIR-}" ] && [ -d /dev/shm ] && [ -w /dev/shm ]; then
    export TMPDIR=/dev/shm
fi
work=$(cd "$(mktemp -d)" && pwd -P)
trap 'chmod -R u+rwX "$work"; rm -rf "$work"' EXIT
# shellcheck disable=SC2034
root=$work/root

# find_program [PATH]: the program to try, by default the one that was built in this checkout.
find_program() {
    program=${1:-$here/crates/nixswitch/out/nixswitch}
    if [ ! -x "$program" ]; then
        echo "no program at $program" >&2
        exit 1
    fi
}

# quickest TIMES WORDS..: sets `micros` to the microseconds of the quickest of so many runs.
quickest() {
    local times=$1 from spent
    shift
    micros=
    for _ in $(seq "$times"); do
        from=${EPOCHREALTIME/./}
        "$@"
        spent=$((${EPOCHREALTIME/./} - from))
        if [ -z "$micros" ] || [ "$spent" -lt "$micros" ]; then
            micros=$spent
        fi
    done
}

# make_system FOLDER NAME UNITS PROGRAM: a system below this root folder, whose every tenth unit runs this program.
make_system() {
    local folder=$1/tree/nix/store/$2/etc/systemd/system
    mkdir -p "$folder"
    printf 'F 0644 0 0\n%s\n' "$2" >"$1/tree/nix/store/$2/nixos-version"
    awk -v folder="$folder" -v last="$3" -v program="$4" 'BEGIN {
        target = folder "/multi-user.target"
        printf "F 0644 0 0\n[Unit]\nDescription=Multi-User System\n" >target
        for (number = 1; number < last; number++) {
            name = "unit-" number ".service"
            printf "Wants=%s\n", name >target
            file = folder "/" name
            print "F 0644 0 0\n[Unit]\nDescription=Unit " number "\nAfter=network.target" >file
            print "[Service]\nExecStart=" (number % 10 ? "/bin/unit" : program) " --number " number >file
            print "Environment=PATH=/run/current-system/sw/bin\nRestart=on-failure" >file
            print "[Install]\nWantedBy=multi-user.target" >file
            close(file)
        }
    }'
}

# services LAST STEP: the names of the services below this number that the step divides, in byte order.
services() {
    awk -v last="$1" -v step="$2" 'BEGIN { for (number = step; number < last; number += step) print "unit-" number ".service" }' | sort
}

# lines WORD [END]: each line of the input between a word and an end.
lines() {
    awk -v word="$1" -v end="${2-}" '{ print word " " $0 end }'
}

# make_farm FOLDER NAME: below /etc of this root what a switch to this system leaves, each of whose entries is a link.
make_farm() {
    local etc=$1/tree/etc
    (cd "$1/tree/nix/store/$2/etc" && find . -type d -printf "$etc/%P\\0" | xargs -0 mkdir -p && find . -type f -printf '%P\n') |
        awk -v etc="$etc" '{ file = etc "/" $0; print "L /etc/static/" $0 >file; close(file) }'
    printf 'F 0644 0 0\n' >"$etc/.clean"
    printf 'L /nix/store/%s/etc\n' "$2" >"$etc/static"
}

# make_machine FOLDER UNITS: a root with two systems of this many units, of which the first is in use, and
# what a switch to the second reports, in `work/wanted` without its last line.
make_machine() {
    rm -rf "$1"
    make_system "$1" old-sys "$2" /bin/old
    make_system "$1" new-sys "$2" /bin/new
    mkdir -p "$1/tree/run"
    printf 'L /nix/store/old-sys\n' >"$1/tree/run/current-system"
    make_farm "$1" old-sys
    { echo multi-user.target && services "$2" 1; } | sort | lines active >"$work/active"
    { echo multi-user.target && services "$2" 10; } | sort >"$work/started"
    { echo "loaded /nix/store/old-sys/etc" && cat "$work/active"; } >"$1/manager"
    {
        printf 'from nix/store/old-sys\nto nix/store/new-sys\n'
        services "$2" 10 | lines stop
        lines start <"$work/started"
    } >"$work/wanted"
}

# make_entries FOLDER NAME ENTRIES LACKED: further entries of this system, with numbers below that. Those that leave 0
# by thirty are copies with the system's name in them, those that leave LACKED aren't there, and the others are links.
make_entries() {
    local folder=$1/tree/nix/store/$2/etc/app
    seq 0 $((($3 - 1) / 100)) | awk -v folder="$folder" '{ printf "%s/d%s%c", folder, $0, 0 }' | xargs -0 mkdir -p
    awk -v folder="$folder" -v name="$2" -v last="$3" -v lacked="$4" 'BEGIN {
        for (number = 0; number < last; number++) {
            if (number % 30 == lacked) continue
            file = folder "/d" int(number / 100) "/f" number
            print "F 0644 0 0\nentry " number (number % 30 ? "" : " of " name) >file
            close(file)
            if (number % 30) continue
            print "F 0644 0 0\n0640" >(file ".mode")
            close(file ".mode")
        }
    }'
}

# entries SYSTEM ENTRIES LACKED: what a switch to this system leaves of these entries, a line each, in byte order.
entries() {
    awk -v name="$1" -v last="$2" -v lacked="$3" 'BEGIN {
        for (number = 0; number < last; number++) {
            if (number % 30 == lacked) continue
            place = "app/d" int(number / 100) "/f" number
            print place ":" (number % 30 ? "L /etc/static/" place : "F 0640 0 0")
            if (number % 30 == 0) print place ":entry " number " of " name
        }
    }' | sort
}

# entries_left FOLDER: the lines of all further entries that stand below /etc of this root, in byte order.
entries_left() {
    (cd "$1/tree/etc" && if [ -d app ]; then grep -r . app; fi) | sort
}

# make_accounts FOLDER NAME ACCOUNTS LACKED: what this system declares: users with numbers below that, but for those that
# leave LACKED by twenty, and a group for each ten of them.
make_accounts() {
    awk -v last="$3" -v lacked="$4" '
        function user(number) { return "\"u" number "\"" }
        BEGIN {
            print "F 0644 0 0\n{\"mutableUsers\": false, \"groups\": [{\"name\": \"users\", \"gid\": 100}"
            for (number = 0; number < last; number += 10)
                print ", {\"name\": \"g" number "\", \"members\": [" user(number + 1) ", " user(number + 2) "]}"
            print "], \"users\": [{\"name\": \"root\", \"uid\": 0, \"group\": \"users\"}"
            for (number = 0; number < last; number++)
                if (number % 20 != lacked)
                    print ", {\"name\": " user(number) ", \"group\": \"users\", \"description\": \"User " number "\"}"
            print "]}"
        }' >"$1/tree/nix/store/$2/users-groups.json"
}

# make_whole FOLDER UNITS ENTRIES ACCOUNTS: a root with two systems of so many units, further entries below etc and users.
# A tenth of each is another in the second system. The first is in use as the program leaves it, with each unit active.
# Sets `first_planned` and `first` to the microseconds of a dry run of the first system where nothing is in use, and of
# the switch to it.
make_whole() {
    local from
    rm -rf "$1"
    make_system "$1" old-sys "$2" /bin/old
    make_system "$1" new-sys "$2" /bin/new
    make_entries "$1" old-sys "$3" 20
    make_entries "$1" new-sys "$3" 10
    make_accounts "$1" old-sys "$4" 10
    make_accounts "$1" new-sys "$4" 0
    from=${EPOCHREALTIME/./}
    if ! "$program" "$1" dry-activate nix/store/old-sys >"$work/stdout" 2>"$work/stderr"; then
        echo "the root with $2 units, $3 entries and $4 users can't be planned: $(cat "$work/stderr")" >&2
        exit 1
    fi
    first_planned=$((${EPOCHREALTIME/./} - from))
    from=${EPOCHREALTIME/./}
    if ! "$program" "$1" switch nix/store/old-sys >"$work/stdout" 2>"$work/stderr"; then
        echo "the root with $2 units, $3 entries and $4 users can't be made: $(cat "$work/stderr")" >&2
        exit 1
    fi
    first=$((${EPOCHREALTIME/./} - from))
    { echo "loaded /nix/store/old-sys/etc" && { echo multi-user.target && services "$2" 1; } | sort | lines active; } >"$1/manager"
}

# keep_root: keeps a copy of the root without its store, to which `restore_kept` takes it back.
keep_root() {
    rm -rf "$work/kept"
    mkdir -p "$work/kept/tree/nix"
    cp -r "$root/tree/boot" "$root/tree/etc" "$root/tree/run" "$root/tree/var" "$work/kept/tree"
    cp -r "$root/tree/nix/var" "$work/kept/tree/nix"
    cp "$root/manager" "$work/kept"
}

# Takes the root back to what was kept of it.
restore_kept() {
    rm -rf "$root/tree/boot" "$root/tree/etc" "$root/tree/run" "$root/tree/var" "$root/tree/nix/var" "$root/manager"
    cp -r "$work/kept/." "$root"
}

# find_tools: sets `timed` and `traced` to `yes` where the peak memory and the calls can be told.
find_tools() {
    timed=
    [ ! -x /usr/bin/time ] || timed=yes
    traced=
    if strace -o "$work/calls" true 2>"$work/stderr"; then
        traced=yes
    fi
}

# thousandths NUMBER: prints so many of them, as a number with three places.
thousandths() {
    printf '%d.%03d' $(($1 / 1000)) $(($1 % 1000))
}

# print_row WORDS..: prints the cells of a row.
print_row() {
    printf '%12s' "$1"
    shift
    printf ' %12s' "$@"
    echo
}

# grow COUNT MICROS WORD: adds to `grown` how the time grew since the row before, whose units or other things are counted.
last=''
grown=''
grow() {
    [ -z "$last" ] || grown+=$(awk -v a="$last" -v b="$1 $2" -v word="$3" 'BEGIN {
        split(a, from, " ")
        split(b, to, " ")
        printf "%d to %d %s, x%.1f: time x%.1f", from[1], to[1], word, to[1] / from[1], to[2] / from[2]
        if (to[1] > from[1])
            printf ", each further one %.1f microseconds", (to[2] - from[2]) / (to[1] - from[1])
    }')$'\n'
    last="$1 $2"
}

# build_small NAME CRATES..: builds a program over these crates of the repository and sets `built` to it; the program is read
# from standard input. It stands in no crate of crates.txt, which the gate would prove, build and run each time, and is
# built in a scratch copy of the crates that it uses and those below them.
build_small() {
    local name=$1 crate part uses
    shift
    uses="$*"
    mkdir -p "$work/copy/crates/$name/src"
    : >"$work/empty"
    cp "$here/HANDLES" "$work/copy/"
    for crate in $(awk -v wanted="$uses" '
        /^[a-z]/ { name = $1; sub(/:/, "", name); used[name] = $0; sub(/^[^:]*:/, "", used[name]) }
        function take(name,   names, count, at) {
            if (!(name in used) || taken[name]++) return
            count = split(used[name], names, " ")
            for (at = 1; at <= count; at++) take(names[at])
            print name
        }
        END { count = split(wanted, names, " "); for (at = 1; at <= count; at++) take(names[at]) }' "$here/crates.txt"); do
        mkdir "$work/copy/crates/$crate"
        for part in src specs proofs; do
            [ ! -d "$here/crates/$crate/$part" ] || cp -r "$here/crates/$crate/$part" "$work/copy/crates/$crate/"
        done
        grep "^$crate:" "$here/crates.txt" >>"$work/copy/crates.txt"
    done
    echo "$name: $uses" >>"$work/copy/crates.txt"
    cat >"$work/copy/crates/$name/src/main.rt"
    (cd "$work/copy/crates/$name" && rt run -- plain "$work/empty") >"$work/build" 2>&1
    built=$work/copy/crates/$name/out/$name
    if [ ! -x "$built" ]; then
        cat "$work/build"
        exit 1
    fi
}

# quickest_telling WANTED WORDS..: sets `micros` to the microseconds of the quickest of five runs, each of which has to tell this.
quickest_telling() {
    local wanted=$1
    shift
    tells() {
        local found
        found=$("$@")
        if [ "$found" != "$wanted" ]; then
            echo "$* gave $found in place of $wanted"
            exit 1
        fi
    }
    quickest 5 tells "$@"
}

# make_plain: compiles bench/plain_switch.rs, and sets `plain` to that program.
make_plain() {
    plain=$work/plain_switch
    rustc --edition 2021 -O -o "$plain" "$here/bench/plain_switch.rs"
}

# processor WORDS..: prints the processor time of a run in milliseconds.
processor() {
    local TIMEFORMAT='%U %S'
    { time "$@" >"$work/stdout" 2>"$work/stderr"; } 2>&1 | awk '{ print ($1 + $2) * 1000 }'
}

# compare_plain UNITS: where rustc is there, compares the processor time of the program and of plain Rust on a root of so many
# units, the least of nine runs in turn each. Each has to end as `after` wants it.
compare_plain() {
    command -v rustc >"$work/stdout" || return 0
    make_plain || { failed=1; return; }
    make_size "$1"
    fresh
    program=$plain act
    after "plain Rust on $1"
    for _ in $(seq 9); do
        echo "$(processor_of "$program") $(processor_of "$plain")"
    done | awk -v units="$1" '
        NR == 1 || $1 < ours { ours = $1 }
        NR == 1 || $2 < plain { plain = $2 }
        END { printf "%d units, milliseconds of processor time: %d, plain Rust %d, ratio %.2f\n", units, ours, plain, ours / plain }'
}

# What reads the calls that strace writes: it counts them, and how often one unit file is opened and read up to
# its end. A script adds what it counts besides.
cat >"$work/count.awk" <<'AWK'
{ sub(/^[0-9]+ +/, "") }
!/^[a-z_0-9]+\(/ { next }
{
    calls++
    kind = $0
    sub(/\(.*/, "", kind)
    file = ""
    if (match($0, /<[^>]*>/))
        file = substr($0, RSTART + 1, RLENGTH - 2)
    if (kind ~ /^open/ && match($0, /= [0-9]+<[^>]*>/)) {
        file = substr($0, RSTART, RLENGTH - 1)
        sub(/^[^<]*</, "", file)
    }
}
file ~ /\.service$/ {
    if (kind ~ /^open/ && ++opened[file] > opens)
        opens = opened[file]
    if (kind == "read" && ++taken[file] > reads)
        reads = taken[file]
}
AWK
