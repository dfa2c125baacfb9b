#!/bin/bash
# Compares the units of an fstab with what systemd makes of it.
#
# bench/fstab.sh
#
# Needs bash 5, awk, the coreutils, systemd-escape, systemd's fstab generator (both are in Debian's
# package systemd) and the toolchain's rt, by which it builds a small program over fstab_mounts. The
# program stands in this script, and is built in a scratch copy of the crates that it uses.
#
# A hundred paths are escaped by both, and each line that differs is printed. Then a hundred lines are
# read by both, and each value of each unit that differs is printed, but for the values that the
# generator leaves out: `Type=auto` and `Options=defaults`. At the end come known differences, one a
# line. In a container the generator makes no swaps. It ends with 1 where anything else differs. It is no part of the gate.
. "$(dirname "$0")/common.sh"
generator=/lib/systemd/system-generators/systemd-fstab-generator
if ! command -v systemd-escape >"$work/found" || [ ! -x "$generator" ]; then
    echo "no systemd-escape or no $generator" >&2
    exit 1
fi

build_small read_fstab fstab_mounts unit_text switch_names <<'RATTLE'
//! Prints the mounts of the paths in a file, or the units of an fstab with their values.
#![tactic(auto)]

use fstab_mounts::{mount_unit, parse};
use std::{env, fs, io};
use unit_text::UnitText;

/// Prints the values of a unit, a line each.
fn print_values(rt: &impl Print, unit: &str, text: &UnitText) -> io::Result<()> {
    for (section, key) in [
        ("Mount", "What"),
        ("Mount", "Where"),
        ("Mount", "Type"),
        ("Mount", "Options"),
        ("Swap", "What"),
        ("Swap", "Options"),
    ]
    .iter()
    {
        for value in text.values(section, key) {
            let value = value.as_str();
            println!(rt; "{unit} {key}={value}")?;
        }
    }
    Ok(())
}

fn main(rt: HostRuntime) -> io::Result<()> {
    let mut arguments = env::args(&rt)?;
    let _program = arguments.next();
    let word = arguments.next();
    let is_paths = word.is_some_and(|word| word.as_str() == "paths");
    let Some(file) = arguments.next() else {
        return Ok(());
    };
    let bytes = fs::read(&rt, file.as_str())?;
    if is_paths {
        let Ok(text) = std::str::from_utf8(bytes.as_slice()) else {
            return Ok(());
        };
        for path in text.lines() {
            match mount_unit(rt.alloc(), path) {
                Ok(unit) => println!(rt; "{}", unit.stem())?,
                Err(_) => println!(rt; "too long")?,
            }
        }
        return Ok(());
    }
    let units = parse(rt.alloc(), bytes.as_slice())?;
    for unit in units.as_slice() {
        let auto = if unit.auto { "auto" } else { "noauto" };
        let name = unit.unit.as_str();
        println!(rt; "{name} {auto}")?;
        print_values(&rt, name, &unit.text)?;
    }
    Ok(())
}
RATTLE
program=$built

# A hundred paths: names of letters, digits and every kind of sign, with slashes at the ends and between.
awk 'BEGIN {
    split("a b c Z 0 9 : _ . - \\ @ + = , ~ # % & ( ) [ ] ! ? é ü 日 \" '\''", signs, " ")
    count = 30
    srand(7)
    print "/"; print "//"; print "/home/a-b/"; print "/.snapshots/.x"; print "/-"
    for (line = 6; line <= 100; line++) {
        path = rand() < 0.2 ? "//" : "/"
        names = 1 + int(rand() * 4)
        for (name = 1; name <= names; name++) {
            size = 1 + int(rand() * 8)
            text = ""
            for (sign = 1; sign <= size; sign++)
                text = text (rand() < 0.1 ? " " : signs[1 + int(rand() * count)])
            if (text == "." || text == "..")
                text = text "a"
            path = path text (name < names ? (rand() < 0.2 ? "///" : "/") : (rand() < 0.3 ? "/" : ""))
        }
        print path
    }
}' >"$work/paths"
"$program" paths "$work/paths" >"$work/ours"
while IFS= read -r path; do
    systemd-escape --path -- "$path" 2>&1
done <"$work/paths" >"$work/theirs"
failed=0
paste "$work/paths" "$work/ours" "$work/theirs" | awk -F '\t' '$2 != $3 { print "path " $1 ": " $2 " and not " $3; bad = 1 }
    END { exit bad }' || failed=1
echo "$(wc -l <"$work/paths") paths compared"

# generate FILE: what the generator makes of an fstab, in the folder `normal`, and what it says.
generate() {
    rm -rf "$work/normal" "$work/early" "$work/late"
    mkdir "$work/normal" "$work/early" "$work/late"
    SYSTEMD_FSTAB=$1 "$generator" "$work/normal" "$work/early" "$work/late" >"$work/said" 2>&1
}

# A hundred lines: mounts and swaps without a device's path, which the generator leaves out in a container.
awk 'BEGIN {
    srand(8)
    for (line = 1; line <= 100; line++) {
        gap = rand() < 0.5 ? " " : "\t \t"
        blank = rand() < 0.3 ? "\\040" : ""
        options = rand() < 0.3 ? "rw,noauto" : (rand() < 0.5 ? "ro,noatime" : "defaults")
        if (line % 10 == 0)
            print "# /data/" line gap "/srv" gap "ext4" gap "rw"
        else if (line % 10 == 1)
            print "/data/swap-" line blank gap "none" gap "swap" gap (options == "defaults" ? "sw" : options)
        else if (line % 10 == 2)
            print ""
        else
            print "host:/export/" line gap "/srv/data-" line blank "/x_" line % 7 gap "nfs" gap options gap "0 0"
    }
}' >"$work/fstab"
generate "$work/fstab"
"$program" units "$work/fstab" | sort >"$work/ours"
if grep -q 'Running in a container' "$work/said"; then
    echo "the generator makes no swaps in a container: they are left out"
    sed -i '/^[^ ]*\.swap /d' "$work/ours"
fi
(cd "$work/normal" && for unit in *.mount *.swap; do
    [ -f "$unit" ] || continue
    UNIT=$unit awk '/^(What|Where|Type|Options)=/ {
        gsub(/\\x20/, " ")
        gsub(/%%/, "%")
        print ENVIRON["UNIT"] " " $0
    }' "$unit"
done) | sort >"$work/theirs"
grep -v ' \(no\)\?auto$' "$work/ours" | grep -v ' Options=defaults$' | grep -v ' Type=auto$' >"$work/values"
diff "$work/values" "$work/theirs" >"$work/differences" || failed=1
cat "$work/differences"
echo "$(wc -l <"$work/fstab") lines compared, $(wc -l <"$work/theirs") values"

# Those that are started with the system.
awk '$2 == "auto" { print $1 }' "$work/ours" | sort >"$work/started"
(cd "$work/normal" && find local-fs.target.requires remote-fs.target.requires swap.target.requires \
    local-fs.target.wants remote-fs.target.wants swap.target.wants -name '*.mount' -o -name '*.swap' 2>"$work/absent" | sed 's,.*/,,' | sort) >"$work/wanted"
diff "$work/started" "$work/wanted" || failed=1
echo "$(wc -l <"$work/wanted") units started with the system"

# Known differences.
for path in /a/./b /a/../b; do
    echo "$path" >"$work/paths"
    echo "known: $path is $("$program" paths "$work/paths"), and for systemd-escape: $(systemd-escape --path -- "$path" 2>&1)"
done
for line in 'h:/e /i/ nfs ro' 'h:/e /i/../j nfs ro' 'h:/e /i nfs' 'h:/e /i\012j nfs ro'; do
    echo "$line" >"$work/fstab"
    generate "$work/fstab"
    echo "known: $line is $("$program" units "$work/fstab" | tr '\n' ' ')and for the generator:" \
        "$(find "$work/normal" -maxdepth 1 -name '*.mount' -exec grep -H '^Where=' {} + | sed 's,.*/normal/,,')"
done
exit $failed
