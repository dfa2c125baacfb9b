# Putting so many units in order by twelve or thirteen edges for each, and by one edge for each.
#
# forward    each edge leads to a greater unit, so that no unit is broken
# scattered  edges lead anywhere, so that most units are broken
# ring       all units wait for one another in a ring
# pairs      each two units wait for one another
# chain      each unit waits for the next one
#
# Of each graph stand its edges, the broken units, the milliseconds of the quickest of five orders without what makes the
# edges, and the most memory that the program had at once, with the edges as they are given and as they are ordered. An order
# of 16,384 units by forward edges may take 500 milliseconds and 100 MB.
# shellcheck shell=bash disable=SC2034,SC2154
default_sizes=(16384)

rows() {
    local size graph told edges broken micros least peak
    find_tools
    print_row graph units edges broken milliseconds 'peak KiB'
    for size in "$@"; do
        for graph in 'forward 12' 'scattered 13' 'ring 1' 'pairs 1' 'chain 1'; do
            least=
            for _ in 1 2 3 4 5; do
                # shellcheck disable=SC2086
                told=$("$built" order $graph "$size") || exit 1
                read -r edges broken micros <<<"$told"
                if [ -z "$least" ] || [ "$micros" -lt "$least" ]; then
                    least=$micros
                fi
            done
            peak=-
            if [ -n "$timed" ]; then
                # shellcheck disable=SC2086
                /usr/bin/time -f %M -o "$work/peak" "$built" order $graph "$size" >"$work/stdout"
                peak=$(tail -n 1 "$work/peak")
            fi
            print_row "${graph% *}" "$size" "$edges" "$broken" "$(thousandths "$least")" "$peak"
            if [ "$graph $size" = 'forward 12 16384' ]; then
                [ "$least" -le 500000 ] || wrong "$size" 'an order took more than 500 milliseconds'
                [ "$peak" = - ] || [ "$peak" -le 102400 ] || wrong "$size" 'an order took more than 100 MB'
            fi
        done
    done
}

build_small order_units start_order host_trait switch_names <<'RATTLE'
//! Puts units in order by the edges of a graph, and prints how many edges there are, how many units
//! are broken, and the microseconds.
#![tactic(auto)]

ghost use Rattle.std.specs.Prelude.{IfSome};
ghost use Rattle.std.specs.List.Sorted.{IsStrictlySortedBy};
ghost use Rattle.host_trait.specs.Bytes.{bytes_cmp};

use host_trait::UnitSet;
use start_order::{Edge, edges_between, order};
use std::alloc::Global;
use std::time::Instant;
use std::{env, io};
use switch_names::{Listed, UnitName};

/// The unit of a number.
fn unit_of(alloc: Global, number: u64) -> Option<UnitName> {
    let text = format!(in alloc; "unit-{number:05}.service").ok()?;
    UnitName::parse(alloc, text.as_str()).ok()
}

/// So many units.
fn units_of(alloc: Global, count: u64) -> Option<Listed<UnitName>>
    ensures { IfSome result (IsStrictlySortedBy bytes_cmp) }
{
    let mut set = UnitSet::new(alloc);
    for number in 0..count {
        set.insert(unit_of(alloc, number)?).ok()?;
    }
    set.into_names(alloc).ok()
}

/// The number of the unit to which an edge leads.
fn end_of(graph: &str, count: u64, number: u64, step: u64) -> u64 {
    let next = number.wrapping_add(1);
    match graph {
        "forward" => next
            .wrapping_add(step.wrapping_mul(step))
            .wrapping_add(number % 97),
        "scattered" => number
            .wrapping_mul(7919)
            .wrapping_add(step.wrapping_mul(104729))
            % 16381,
        "ring" if next == count => 0,
        "ring" => next,
        "pairs" if number % 2 == 0 => next,
        _ => number.wrapping_sub(1),
    }
}

/// The edges of a graph.
fn edges_of(alloc: Global, graph: &str, each: u64, count: u64) -> Option<Vec<Edge>> {
    let mut edges = Vec::new(alloc);
    for number in 0..count {
        for step in 0..each {
            let end = end_of(graph, count, number, step);
            if end < count {
                let (before, after) = (unit_of(alloc, number)?, unit_of(alloc, end)?);
                edges.push(Edge { before, after }).ok()?;
            }
        }
    }
    Some(edges)
}

/// Puts units in order, and prints what it took.
fn put_in_order(rt: &HostRuntime, graph: &str, each: u64, count: u64) -> io::Result<()> {
    let Some(units) = units_of(rt.alloc(), count) else {
        return Ok(());
    };
    let Some(given) = edges_of(rt.alloc(), graph, each, count) else {
        return Ok(());
    };
    let Ok(edges) = edges_between(rt.alloc(), &units, given.as_slice()) else {
        return Ok(());
    };
    let from = Instant::now(rt)?;
    let Ok(ordered) = order(rt.alloc(), &units, &edges) else {
        return Ok(());
    };
    let spent = from.elapsed(rt)?.as_micros();
    let (edges, broken) = (
        ordered.edges.as_slice().len(),
        ordered.broken.as_slice().len(),
    );
    println!(rt; "{edges} {broken} {spent}")?;
    Ok(())
}

fn main(rt: HostRuntime) -> io::Result<()> {
    let mut arguments = env::args(&rt)?;
    let _program = arguments.next();
    let _word = arguments.next();
    let Some(graph) = arguments.next() else {
        return Ok(());
    };
    let (Some(each), Some(count)) = (arguments.next(), arguments.next()) else {
        return Ok(());
    };
    let each = each.as_str().parse::<u64>().unwrap_or(0);
    let count = count.as_str().parse::<u64>().unwrap_or(0);
    put_in_order(&rt, graph.as_str(), each, count)
}
RATTLE
