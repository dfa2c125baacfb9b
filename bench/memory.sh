#!/bin/bash
# Refuses a growth of memory in a run, each in turn, and lets the next run end it.
#
# bench/memory.sh [PROGRAM [STEP]]
#
# Needs bash 5, the coreutils, diffutils and cc.
#
# A small library that is loaded before the C library counts the calls of malloc, calloc and realloc that make room or more
# room, and refuses the one with a number, or that and all after it. First an uncut run is counted, from four roots: a boot
# without a profile, a test that stops and starts a unit, the same where a log of what is owed stands, to which it appends, and a
# switch of the example root, of which each STEP-th growth is refused (1). Then each is refused in turn, in both ways.
#
# A row is `wanted` where the run ended with 5 and its line, and `spared` where it ended as the uncut run does: what was
# refused wasn't needed. In both cases the same run is made again with memory, and has to end with the status of the
# uncut run and to leave the same files but for the stage, and of the manager's file the same lines, in any order and number. Any
# other end is a fault.
#
# It ends with 1 where there is a fault. It is no part of the gate.
. "$(dirname "$0")/common.sh"
find_program "$@"
step=${2-1}
failed=0

cat >"$work/refuse.c" <<'C'
#define _GNU_SOURCE
#include <dlfcn.h>
#include <errno.h>
#include <stdio.h>
#include <stdlib.h>
#include <string.h>

static unsigned long grown, refused;
static int on, ready;
static void *(*real_malloc)(size_t), *(*real_calloc)(size_t, size_t), *(*real_realloc)(void *, size_t);

static void begin(void) {
    if (ready) return;
    ready = 1;
    real_malloc = dlsym(RTLD_NEXT, "malloc");
    real_calloc = dlsym(RTLD_NEXT, "calloc");
    real_realloc = dlsym(RTLD_NEXT, "realloc");
    char *text = getenv("REFUSED");
    if (text) {
        refused = strtoul(text, &text, 10);
        on = *text == '+';
    }
}

static int refuse(void) {
    grown++;
    if (refused && (grown == refused || (on && grown > refused))) {
        errno = ENOMEM;
        return 1;
    }
    return 0;
}

void *malloc(size_t size) {
    begin();
    return refuse() ? NULL : real_malloc(size);
}

void *calloc(size_t count, size_t size) {
    begin();
    return refuse() ? NULL : real_calloc(count, size);
}

void *realloc(void *from, size_t size) {
    begin();
    return refuse() ? NULL : real_realloc(from, size);
}

__attribute__((destructor)) static void end(void) {
    char *place = getenv("GROWN");
    unsigned long count = grown;
    refused = 0;
    FILE *file = place ? fopen(place, "w") : NULL;
    if (!file) return;
    fprintf(file, "%lu\n", count);
    fclose(file);
}
C
if ! cc -O2 -shared -fPIC -o "$work/refuse.so" "$work/refuse.c" 2>"$work/stderr"; then
    cat "$work/stderr" >&2
    exit 1
fi

# The lines of a root's manager, each once.
manager_lines() {
    if [ -e "$1/manager" ]; then sort -u "$1/manager"; fi
}

# Whether the root is as the uncut run has left it.
is_end() {
    rm -f "$root/tree/nix/var/nixswitch.stage"
    diff -r "$work/end/tree" "$root/tree" >"$work/differs" && diff <(manager_lines "$work/end") <(manager_lines "$root") >>"$work/differs"
}

# One growth is refused in a run of `words` from the root `first`: refuse NUMBER.
refuse() {
    rm -rf "$root"
    cp -r "$work/first" "$root"
    REFUSED=$1 LD_PRELOAD=$work/refuse.so "$program" "$root" "${words[@]}" >"$work/stdout" 2>"$work/stderr"
    local ended=$?
    if [ $ended = 5 ] && [ "$(cat "$work/stderr")" = "no memory" ]; then
        wanted=$((wanted + 1))
    elif [ $ended = "$status" ] && cmp -s "$work/stderr" "$work/uncut"; then
        spared=$((spared + 1))
    else
        echo "$1 refused: status $ended, $(head -n 1 "$work/stderr")"
        faults=$((faults + 1))
    fi
    "$program" "$root" "${words[@]}" >"$work/stdout" 2>"$work/stderr"
    ended=$?
    if [ $ended != "$status" ] || ! is_end; then
        echo "$1 refused, and run again: status $ended, $(head -n 3 "$work/differs")"
        faults=$((faults + 1))
    fi
}

# try_root NAME ROOT STEP WORDS..: refuses each STEP-th growth of this run in turn.
try_root() {
    local name=$1 each=$3 total number
    wanted=0
    spared=0
    faults=0
    rm -rf "$work/first" "$work/end"
    cp -r "$2" "$work/first"
    cp -r "$2" "$work/end"
    shift 3
    words=("$@")
    GROWN=$work/grown LD_PRELOAD=$work/refuse.so "$program" "$work/end" "${words[@]}" >"$work/stdout" 2>"$work/uncut"
    status=$?
    total=$(cat "$work/grown")
    for number in $(seq 1 "$each" "$total"); do
        refuse "$number"
        refuse "$number+"
    done
    echo "$name: status $status, $total growths, each $each. refused alone and with all after it: $wanted wanted, $spared spared, $faults faults"
    [ $faults = 0 ] || failed=1
}

try_root "a boot" "$here/crates/nixswitch/data/root" 1 boot nix/store/a-sys
try_root "a test that stops and starts a unit" "$here/crates/run_worlds/data/done-root" 1 test nix/store/b-sys
cp -r "$here/crates/run_worlds/data/done-root" "$work/logged"
mkdir -p "$work/logged/tree/run/nixos"
printf 'F 0644 0 0\nstart 0\nend\n' >"$work/logged/tree/run/nixos/owed-log"
try_root "the same where a log stands" "$work/logged" 1 test nix/store/b-sys
try_root "a switch of the example" "$here/crates/nixswitch/data/example" "$step" switch nix/store/web-24.11
exit $failed
