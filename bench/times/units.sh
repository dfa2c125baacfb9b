# Reading so many unit files of 60 lines: the least of five runs that read each file, and of five that also parse it.
# shellcheck shell=bash disable=SC2034,SC2154
default_sizes=(10000)
lines=60

# Makes the unit files: a service with a list of variables, which fills it up to the last line.
make_size() {
    rm -rf "$work/units"
    mkdir "$work/units"
    awk -v folder="$work/units" -v files="$1" -v lines="$lines" 'BEGIN {
        for (number = 1; number <= files; number++) {
            file = folder "/unit-" number ".service"
            print "[Unit]\nDescription=Unit " number "\nAfter=network.target\n[Service]" >file
            print "ExecStart=/nix/store/00000000000000000000000000000000-unit/bin/unit --number " number >file
            for (line = 8; line <= lines; line++)
                print "Environment=VARIABLE_" line "=value-" number "-" line >file
            print "[Install]\nWantedBy=multi-user.target" >file
            close(file)
        }
    }'
}

rows() {
    local size bytes plain
    for size in "$@"; do
        make_size "$size"
        bytes=$(cat "$work"/units/* | wc -c)
        quickest_telling "$bytes" "$built" plain "$work/units"
        plain=$micros
        quickest_telling $((size * (lines - 3))) "$built" parse "$work/units"
        awk -v files="$size" -v lines="$lines" -v bytes="$bytes" -v plain="$plain" -v parsed="$micros" 'BEGIN {
            printf "%d files of %d lines, %.1f MB\n", files, lines, bytes / 1e6
            printf "a plain read     %8.1f ms, %6.1f microseconds a file\n", plain / 1000, plain / files
            printf "read and parsed  %8.1f ms, %6.1f microseconds a file\n", parsed / 1000, parsed / files
            printf "parsing alone    %8.1f ms, %6.1f microseconds a file, %.0f MB a second\n",
                (parsed - plain) / 1000, (parsed - plain) / files, bytes / (parsed - plain)
        }'
    done
}

build_small read_units unit_text <<'RATTLE'
//! Reads the files of a folder and prints how many bytes they have, or parses each and prints how
//! many values.
#![tactic(auto)]

use std::alloc::Global;
use std::{env, fs, io};
use unit_text::{UnitText, parse};

/// How many values a text has.
fn values_of(text: &UnitText) -> usize {
    let mut count: usize = 0;
    for values in text.parts().front_values {
        count = count.saturating_add(values.as_slice().len());
    }
    count
}

/// How many values a file has, or none where it is refused.
fn parsed(alloc: Global, bytes: &[u8]) -> usize {
    match parse(alloc, bytes) {
        Ok(text) => values_of(&text),
        Err(_) => 0,
    }
}

fn main(rt: HostRuntime) -> io::Result<()> {
    let mut arguments = env::args(&rt)?;
    let _program = arguments.next();
    let word = arguments.next();
    let is_parsing = word.is_some_and(|word| word.as_str() == "parse");
    let Some(folder) = arguments.next() else {
        return Ok(());
    };
    let mut count: usize = 0;
    for entry in fs::read_dir(&rt, folder.as_str())? {
        let bytes = fs::read(&rt, entry?.path())?;
        let one = if is_parsing {
            parsed(rt.alloc(), bytes.as_slice())
        } else {
            bytes.len()
        };
        count = count.saturating_add(one);
    }
    println!(rt; "{count}")?;
    Ok(())
}
RATTLE
