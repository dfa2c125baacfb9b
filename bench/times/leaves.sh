# Making a world in memory of so many leaves, a hundred in a folder.
#
# A row has the milliseconds of the quickest of nine without what makes the paths, in the order of their numbers and scattered, and the
# most memory that the program had at once. 80,000 leaves in order may take a second, and 5.3 times as long as 20,000.
# shellcheck shell=bash disable=SC2034,SC2154
default_sizes=(5000 10000 20000 40000 80000)

# quickest_world STEP SIZE: sets `micros` to the microseconds of the quickest of nine worlds.
quickest_world() {
    local told
    micros=
    for _ in 1 2 3 4 5 6 7 8 9; do
        told=$("$built" leaves "$1" "$2") || exit 1
        [ "${told%% *}" = "$2" ] || wrong "$2" "the world has ${told%% *} leaves"
        if [ -z "$micros" ] || [ "${told##* }" -lt "$micros" ]; then
            micros=${told##* }
        fi
    done
}

rows() {
    local size micros ordered peak twenty=
    find_tools
    print_row leaves 'in order' scattered 'peak KiB'
    for size in "$@"; do
        quickest_world 1 "$size"
        ordered=$micros
        quickest_world 7919 "$size"
        peak=-
        if [ -n "$timed" ]; then
            /usr/bin/time -f %M -o "$work/peak" "$built" leaves 7919 "$size" >"$work/stdout"
            peak=$(tail -n 1 "$work/peak")
        fi
        print_row "$size" "$(thousandths "$ordered")" "$(thousandths "$micros")" "$peak"
        [ "$size" != 20000 ] || twenty=$ordered
        if [ "$size" = 80000 ]; then
            [ "$ordered" -le 1000000 ] || wrong "$size" 'a world took more than a second'
            [ -z "$twenty" ] || [ $((10 * ordered)) -le $((53 * twenty)) ] || wrong "$size" 'it took more than 5.3 times as long as 20000'
        fi
    done
}

build_small leaves_world host_trait switch_names <<'RATTLE'
//! Makes a world of so many leaves in memory, and prints how many it has and the microseconds.
#![tactic(auto)]

use host_trait::{Leaf, World};
use std::alloc::Global;
use std::time::Instant;
use std::{env, io};
use switch_names::{Bytes, Path};

/// The path of a leaf.
fn path_of(alloc: Global, number: u64) -> Option<Path> {
    let (folder, name) = (number / 100, number % 100);
    let text = format!(in alloc; "etc/d{folder}/f{name}").ok()?;
    Path::parse(alloc, text.as_str()).ok()
}

/// The paths of so many leaves, by this step from one to the next.
fn paths_of(alloc: Global, step: u64, count: u64) -> Option<Vec<Path>> {
    let mut paths = Vec::new(alloc);
    for number in 0..count {
        paths
            .push(path_of(alloc, number.wrapping_mul(step) % count)?)
            .ok()?;
    }
    Some(paths)
}

/// Puts a file at each path.
fn world_of(alloc: Global, paths: Vec<Path>) -> Option<World> {
    let mut world = World::new(alloc);
    for path in paths {
        let bytes = Bytes::from_slice(alloc, b"entry\n").ok()?;
        let _was = world
            .set_leaf(alloc, path, Leaf::file(bytes, 0o644, 0, 0))
            .ok()?;
    }
    Some(world)
}

/// Makes a world, and prints what it took.
fn make(rt: &HostRuntime, step: u64, count: u64) -> io::Result<()> {
    if count == 0 {
        return Ok(());
    }
    let Some(paths) = paths_of(rt.alloc(), step, count) else {
        return Ok(());
    };
    let from = Instant::now(rt)?;
    let Some(world) = world_of(rt.alloc(), paths) else {
        return Ok(());
    };
    let spent = from.elapsed(rt)?.as_micros();
    let made = world.leaf_count();
    println!(rt; "{made} {spent}")?;
    Ok(())
}

fn main(rt: HostRuntime) -> io::Result<()> {
    let mut arguments = env::args(&rt)?;
    let _program = arguments.next();
    let _word = arguments.next();
    let (Some(step), Some(count)) = (arguments.next(), arguments.next()) else {
        return Ok(());
    };
    let step = step.as_str().parse::<u64>().unwrap_or(1);
    let count = count.as_str().parse::<u64>().unwrap_or(0);
    make(&rt, step, count)
}
RATTLE
