# Planning what a switch owes the units of two systems of so many: services that each want six others, so that 16,000 have 96,000
# wants, one in ten with another program in the new system, half of them active, a target that wants the first, and a log
# by which a hundred wait for a start. A small program reads all that a plan needs and plans nothing.
#
# Of each root stands the least processor time, in milliseconds and without the system's share, of ten runs that read and of ten
# dry runs, the difference, and what that is for each unit in microseconds. A dry run also plans accounts, of which there are
# none here, and /etc, whose entries are the unit files: that is in the difference. Planning may not take four times as long for
# each unit of the largest root as of the smallest.
# shellcheck shell=bash disable=SC2034,SC2154
default_sizes=(1000 4000 16000)

# make_wanting NAME UNITS PROGRAM: a system whose every tenth unit runs this program.
make_wanting() {
    local folder=$root/tree/nix/store/$1/etc/systemd/system
    mkdir -p "$folder"
    printf 'F 0644 0 0\n%s\n' "$1" >"$root/tree/nix/store/$1/nixos-version"
    printf 'F 0644 0 0\n[Unit]\nWants=unit-1.service\n' >"$folder/multi-user.target"
    awk -v folder="$folder" -v last="$2" -v program="$3" 'BEGIN {
        for (number = 1; number < last; number++) {
            file = folder "/unit-" number ".service"
            print "F 0644 0 0\n[Unit]\nDescription=Unit " number >file
            wants = "Wants="
            for (more = 1; more <= 6; more++)
                wants = wants "unit-" (number * 7 + more * more) % (last - 1) + 1 ".service "
            print wants >file
            print "[Service]\nExecStart=" (number % 10 ? "/bin/unit" : program) " --number " number >file
            close(file)
        }
    }'
}

# Makes the root.
make_size() {
    rm -rf "$root"
    make_wanting old-sys "$1" /bin/old
    make_wanting new-sys "$1" /bin/new
    mkdir -p "$root/tree/run/nixos"
    printf 'L /nix/store/old-sys\n' >"$root/tree/run/current-system"
    { printf 'F 0644 0 0\nstart 100\n' && services 101 1 && echo end; } >"$root/tree/run/nixos/owed-log"
    {
        echo "loaded /nix/store/old-sys/etc"
        {
            echo "active multi-user.target"
            awk -v last="$1" 'BEGIN { for (number = 2; number < last; number += 2) print "active unit-" number ".service" }'
        } | sort
    } >"$root/manager"
}

# least WORDS..: prints the least processor time of ten runs, in milliseconds.
least() {
    local TIMEFORMAT=%3U
    for _ in 1 2 3 4 5 6 7 8 9 10; do
        if ! { time "$@" >"$work/stdout" 2>"$work/stderr"; } 2>&1; then
            echo "a run failed: $*" >&2
            cat "$work/stderr" >&2
            exit 1
        fi
    done | awk '{ spent = int($1 * 1000 + 0.5); if (NR == 1 || spent < least) least = spent } END { print least }'
}

rows() {
    local size plain whole first=''
    print_row units read 'dry run' planning 'each unit'
    for size in "$@"; do
        make_size "$size"
        plain=$(least "$built" plain "$root") || exit 1
        whole=$(least "$program" "$root" dry-activate nix/store/new-sys) || exit 1
        print_row "$size" "$plain" "$whole" $((whole - plain)) "$(thousandths $(((whole - plain) * 1000000 / size)))"
        [ -n "$first" ] || first="$size $((whole - plain))"
    done
    awk -v a="$first" -v b="$size $((whole - plain))" 'BEGIN {
        split(a, from, " ")
        split(b, to, " ")
        if (from[2] <= 0 || to[2] <= 0)
            exit 0
        factor = (to[2] / to[1]) / (from[2] / from[1])
        printf "%d to %d units: planning x%.1f for each unit\n", from[1], to[1], factor
        exit factor >= 4
    }' || failed=1
}

build_small read_systems host_folder owed_log log_text tree_put unit_defs host_trait switch_names <<'RATTLE'
//! Reads the units of two systems, the states and the lists of a root, and prints how many units it found.
#![tactic(auto)]

use host_folder::FolderHost;
use host_trait::{HostFault, Manager};
use owed_log::StandingLists;
use std::alloc::Global;
use std::process::ExitCode;
use std::env;
use switch_names::{NameFault, SystemName};
use tree_put::nothing_found;
use unit_defs::{Defs, DefsFault};

/// The system of this name.
fn system_of(alloc: Global, text: &str) -> Result<SystemName, HostFault> {
    SystemName::parse(alloc, text).map_err(|_fault: NameFault| HostFault::Memory)
}

/// How many units of the new system, units that aren't inactive, and units to start were read.
fn read<H: Manager>(alloc: Global, host: &mut H) -> Result<usize, HostFault> {
    let old = Defs::read_old(alloc, host, &system_of(alloc, "nix/store/old-sys")?)?;
    let new = match Defs::read(alloc, host, &system_of(alloc, "nix/store/new-sys")?) {
        Ok(new) => new,
        Err(DefsFault::Many(_)) => return Ok(0),
        Err(DefsFault::Text { .. }) => return Ok(0),
        Err(DefsFault::Host(fault)) => return Err(fault),
    };
    let states = host.units(alloc)?;
    let mut findings = nothing_found(alloc);
    let standing = StandingLists::read(alloc, host, &mut findings)?;
    let _names = old.names().as_slice().len();
    Ok(new
        .names()
        .as_slice()
        .len()
        .saturating_add(states.list().as_slice().len())
        .saturating_add(standing.lists.starts.as_slice().len()))
}

fn main(rt: HostRuntime) -> ExitCode {
    let Ok(mut arguments) = env::args(&rt) else {
        return ExitCode::from(5);
    };
    let _program = arguments.next();
    let _word = arguments.next();
    let Some(root) = arguments.next() else {
        return ExitCode::from(1);
    };
    let Ok(mut host) = FolderHost::open(&rt, root.as_str()) else {
        return ExitCode::from(5);
    };
    match read(rt.alloc(), &mut host) {
        Ok(count) => match println!(&rt; "{count}") {
            Ok(()) => ExitCode::from(0),
            Err(_) => ExitCode::from(6),
        },
        Err(_) => ExitCode::from(3),
    }
}
RATTLE
