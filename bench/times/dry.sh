# A dry run of roots with two systems of so many units: services of ten lines, one in ten with another program in the new system,
# a target that wants them all, and all of them active. 4,000 units have to take less than a second.
#
# opens, reads  the most calls that open one unit file, and that read it up to its end
# changes       calls that make, move or remove something below the root or write to it
#
# Two more roots have large unit files: a template of 10,000 keys with 1,000 active instances, each with a drop-in, which is
# another one in the new system for one in ten; and a unit of 700,000 keys.
# shellcheck shell=bash disable=SC2034,SC2154
default_sizes=(500 4000 16000)
counted_columns=(calls opens reads changes)

make_size() { make_machine "$root" "$1"; }

# Plans the switch, by way of the words given, and sets `status` to how that ended.
act() {
    "$@" "$program" "$root" dry-activate nix/store/new-sys >"$work/stdout" 2>"$work/stderr"
    status=$?
}

after() {
    if [ "$status" != 0 ] || ! cmp -s "$work/stdout" "$work/wanted"; then
        wrong "$1" "status $status or another report, $(cat "$work/stderr")"
    fi
    [ "$1" != 4000 ] || [ "$micros" -lt 1000000 ] || wrong "$1" "a second or more"
}

judge_counts() {
    [ "${counted[opens]}" = 1 ] || wrong "$1" "a unit file was opened ${counted[opens]} times"
    [ "${counted[changes]}" = 0 ] || wrong "$1" "${counted[changes]} changes"
}

cat >>"$work/count.awk" <<'AWK'
index($0, root) > 0 && (kind ~ /^(p?write|creat|f?truncate|mk|rename|link|symlink|unlink|rmdir|[fl]?ch(mod|own))/ || $0 ~ /O_(WRONLY|RDWR|CREAT|TRUNC)/) { changes++ }
END { print calls + 0, opens + 0, reads + 0, changes + 0 }
AWK

# processor_of PROGRAM: prints the processor time of a dry run by this program.
processor_of() { processor "$1" "$root" dry-activate nix/store/new-sys; }

# make_keys FILE KEYS: a unit file with this many keys.
make_keys() {
    awk -v last="$2" 'BEGIN {
        print "F 0644 0 0\n[Service]"
        for (number = 0; number < last; number++) print "Key" number "=value " number
    }' >"$1"
}

# make_instances FOLDER INSTANCES SLICE: drop-ins of this many instances, of which every tenth is put in this slice.
make_instances() {
    seq 0 $(($2 - 1)) | awk -v folder="$1" '{ printf "%s/worker@%s.service.d%c", folder, $0, 0 }' | xargs -0 mkdir
    awk -v folder="$1" -v last="$2" -v slice="$3" 'BEGIN {
        for (number = 0; number < last; number++) {
            file = folder "/worker@" number ".service.d/overrides.conf"
            print "F 0644 0 0\n[Service]\nEnvironment=NUMBER=" number >file
            print "Slice=" (number % 10 ? "system" : slice) ".slice" >file
            close(file)
        }
    }'
}

# workers INSTANCES STEP: the instances below this number that the step divides, in byte order.
workers() {
    seq 0 "$2" $(($1 - 1)) | awk '{ print "worker@" $0 ".service" }' | sort
}

# make_large INSTANCES KEYS: a root with two systems that have a file of this many keys, which is a template with this many
# active instances, or without them an active unit.
make_large() {
    local system folder
    rm -rf "$root"
    for system in old-sys new-sys; do
        make_system "$root" "$system" 0 /bin/true
        folder=$root/tree/nix/store/$system/etc/systemd/system
        if [ "$1" = 0 ]; then
            make_keys "$folder/large.service" "$2"
        else
            make_keys "$folder/worker@.service" "$2"
            make_instances "$folder" "$1" "$system"
        fi
    done
    mkdir -p "$root/tree/run"
    printf 'L /nix/store/old-sys\n' >"$root/tree/run/current-system"
    make_farm "$root" old-sys
    echo "loaded /nix/store/old-sys/etc" >"$root/manager"
    printf 'from nix/store/old-sys\nto nix/store/new-sys\n' >"$work/wanted"
    if [ "$1" = 0 ]; then
        echo "active large.service" >>"$root/manager"
    else
        workers "$1" 1 | lines active >>"$root/manager"
        workers "$1" 10 | lines stop >>"$work/wanted"
        workers "$1" 10 | lines start >>"$work/wanted"
    fi
}

# large INSTANCES KEYS: measures a dry run on such a root.
large() {
    local name="a unit of $2 keys" peak=-
    [ "$1" = 0 ] || name="a template of $2 keys with $1 instances"
    make_large "$1" "$2"
    quickest 3 act
    after "$name"
    if [ -n "$timed" ]; then
        act /usr/bin/time -f %M -o "$work/peak"
        after "$name"
        peak=$(tail -n 1 "$work/peak")
    fi
    printf '%-50s %12s ms %9s KiB\n' "$name" "$(thousandths "$micros")" "$peak"
}

finish() {
    compare_plain 8000
    large 1000 10000
    large 0 700000
}
