#!/bin/bash
# Measures how long one kind of work takes, how much memory and which calls, on smaller and larger roots or texts.
#
# bench/times.sh [KIND [PROGRAM [SIZES..]]]
#
# Without a kind, each is measured, with its own sizes:
#
#   kind      sizes                       what is measured
#   units     10000 (files of 60 lines)   reading unit files, beside a plain read of the same bytes
#   accounts  65536 (rows)                reading and writing account tables, a specification and a map of ids
#   plan      1000 4000 16000 (units)     planning what a switch owes the units, beside a plain read of the same
#   order     16384 (units)               putting units in order by the edges between them
#   leaves    5000 10000 .. 80000         making a world in memory of so many leaves
#   dry       500 4000 16000 (units)      a dry run
#   test      500 4000 16000 (units)      a test of a system of which a tenth is another
#   etc       1000 16000 131072           a switch of so many entries below /etc
#   boot      10 1000 10000               a boot with so many generations
#   collect   1000 4000 10000             a collection of a store of so many paths, half of which go
#   switch    500,2000,60 and so on       a whole switch of so many units, entries and users, on a disk
#   limits    16384,131072,65536          a dry run with as many units, entries and rows as there may be, and with one more
#
# What a kind makes, which columns it prints and what it judges stands in bench/times/KIND.sh. A row has the milliseconds of the
# quickest run without strace, the most memory that a run had at once, and its system calls; then come the growth from row to
# row, and further rows of some kinds. It ends with 1 where a run fails, where what it leaves isn't what was expected, or where a
# bound is passed. It is no part of the gate.
#
# Needs bash 5, awk, grep and the coreutils, and the toolchain's rt for `units`, `accounts`, `plan`, `order` and `leaves`, which build
# a small program each. The memory is left out where /usr/bin/time isn't there, and the calls where strace isn't there or may not
# trace. Where rustc is there, `dry` and `test` are compared with bench/plain_switch.rs, which does the same to the same files.
kinds='units accounts plan order leaves dry test etc boot collect switch limits'
if [ $# -eq 0 ]; then
    failed=0
    for kind in $kinds; do
        echo "== $kind"
        "$0" "$kind" || failed=1
    done
    exit $failed
fi
kind=$1
case " $kinds " in
*" $kind "*) ;;
*)
    echo "no such kind: $kind; there are $kinds" >&2
    exit 1
    ;;
esac
# The roots of a whole switch are made on a disk, as a machine's is, since in memory its acts wait for nothing.
[ "$kind" != switch ] || export TMPDIR="${TMPDIR:-/var/tmp}"
. "$(dirname "$0")/common.sh"
find_program "${@:2}"
sizes=("${@:3}")
failed=0

# ---- What a kind may say otherwise.

# The columns behind the size, those that `before` sets in `further`, and the calls that are counted.
further_columns=()
counted_columns=(calls)
# How often the quickest run is sought, and what the sizes count.
times=3
things=units

# before SIZE: measures what a row has beside the run.
before() { further=(); }

# fresh: takes the root back to what it was before a run.
fresh() { :; }

# judge_counts SIZE: judges the counted calls, by name in `counted`.
judge_counts() { :; }

# after_row SIZE: what is kept of a row.
after_row() { :; }

# finish: what comes after the rows.
finish() { :; }

# weight SIZE: how many things a size has.
weight() { echo "$1"; }

# wrong SIZE WHAT: says that a run went wrong.
wrong() {
    failed=1
    echo "$1 $things: $2"
}

# rows SIZES..: measures a row for each size.
rows() {
    local size peak name counts
    local -A counted
    find_tools
    print_row "$things" "${further_columns[@]}" milliseconds 'peak KiB' "${counted_columns[@]}"
    for size in "$@"; do
        make_size "$size"
        before "$size"
        least=
        for _ in $(seq "$times"); do
            fresh
            quickest 1 act
            after "$size"
            if [ -z "$least" ] || [ "$micros" -lt "$least" ]; then
                least=$micros
            fi
        done
        peak=-
        if [ -n "$timed" ]; then
            fresh
            act /usr/bin/time -f %M -o "$work/peak"
            after "$size"
            peak=$(tail -n 1 "$work/peak")
        fi
        counts=()
        for name in "${counted_columns[@]}"; do
            counts+=(-)
        done
        if [ -n "$traced" ]; then
            fresh
            act strace -f -y -s 0 -o "$work/calls"
            after "$size"
            read -r -a counts <<<"$(awk -v root="$root/" -f "$work/count.awk" "$work/calls")"
            rm "$work/calls"
            counted=()
            for name in "${!counted_columns[@]}"; do
                counted[${counted_columns[$name]}]=${counts[$name]}
            done
            judge_counts "$size"
        fi
        print_row "$size" "${further[@]}" "$(thousandths "$least")" "$peak" "${counts[@]}"
        grow "$(weight "$size")" "$least" "$things"
        after_row "$size"
    done
    printf '%s' "$grown"
}

. "$here/bench/times/$kind.sh"
[ ${#sizes[@]} -gt 0 ] || sizes=("${default_sizes[@]}")
rows "${sizes[@]}"
finish
exit $failed
