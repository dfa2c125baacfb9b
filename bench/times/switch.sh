# A whole switch of roots with two systems of so many units, further entries below /etc and users, of which the first is in use. A
# tenth of each is another in the second system. The largest takes some four minutes.
#
# first     milliseconds of a dry run of the first system, where nothing is in use
# switched  those of the switch to it, which puts each entry and account and starts each unit
# planned   those of the quickest of three dry runs of the second system
# unsynced  those of the switch to it with NIXOS_NO_SYNC=1
# opens     the most calls that open one unit file
# puts      files of the tree that are put or removed
# syncs     files and folders that are synced
# acts      what is done to units
# At the end comes what the planning takes of the time that the acts take, planned / (milliseconds - planned), and how often as
# long the switch takes with syncs as without. What a run before has left to be written is written before each of the two.
# shellcheck shell=bash disable=SC2034,SC2154
default_sizes=(500,2000,60 2000,5000,200 16000,100000,1000)
further_columns=(first switched planned unsynced acts)
counted_columns=(calls opens puts syncs)
times=1
things='units, entries and users'
shares=''

# Makes the root, keeps a copy of all but its store, and says what a switch has to leave.
make_size() {
    IFS=, read -r units entries users <<<"$1"
    make_whole "$root" "$units" "$entries" "$users"
    keep_root
    entries new-sys "$entries" 10 >"$work/entries"
    awk -v last="$users" 'BEGIN { print "root"; for (number = 0; number < last; number++) if (number % 20) print "u" number }' | sort >"$work/users"
    {
        echo "loaded /nix/store/new-sys/etc"
        { echo multi-user.target && services "$units" 1; } | sort | lines active
        services "$units" 10 | lines stop ' /nix/store/old-sys/etc'
        { echo multi-user.target && services "$units" 10; } | sort | lines start ' /nix/store/new-sys/etc'
    } >"$work/manager"
}

fresh() {
    restore_kept
    sync
}

# by COMMAND WORDS..: runs a command with the new system, by way of the words given, and sets `status`.
by() {
    local command=$1
    shift
    "$@" "$program" "$root" "$command" nix/store/new-sys >"$work/stdout" 2>"$work/stderr"
    status=$?
}

act() { by switch "$@"; }

act_unsynced() { NIXOS_NO_SYNC=1 by switch; }

# count_lines SIZE PATTERN NUMBER: judges how many lines of the last report have a pattern.
count_lines() {
    local found
    found=$(grep -c "$2" "$work/stdout")
    [ "$found" = "$3" ] || wrong "$1" "the report has $found lines of the kind $2, and not $3"
}

# told SIZE: judges the last run by its status and its report.
told() {
    [ "$status" = 0 ] || wrong "$1" "status $status, $(cat "$work/stderr")"
    count_lines "$1" '^stop ' $(((units - 1) / 10))
    count_lines "$1" '^start ' $(((units - 1) / 10 + 1))
    count_lines "$1" '^remove ' $(((entries + 19) / 30))
    count_lines "$1" '^drop user ' $(((users + 19) / 20))
    count_lines "$1" '^add user ' $(((users + 9) / 20))
    count_lines "$1" '^\(skip\|warn\) ' 0
}

before() {
    quickest 3 by dry-activate
    told "$1"
    planned=$micros
    fresh
    quickest 1 act_unsynced
    after "$1"
    unsynced=$micros
    further=("$(thousandths "$first_planned")" "$(thousandths "$first")" "$(thousandths "$planned")" "$(thousandths "$unsynced")"
        "$(grep -c -E '^(stop|start) ' "$work/manager")")
}

after() {
    told "$1"
    entries_left "$root" | cmp -s - "$work/entries" || wrong "$1" "other entries below /etc"
    tail -n +2 "$root/tree/etc/passwd" | cut -d : -f 1 | sort | cmp -s - "$work/users" || wrong "$1" "other users"
    cmp -s "$root/manager" "$work/manager" || wrong "$1" "another state of the units"
    [ -z "$(find "$root/tree/run/nixos" "$root/tree/nix/var/nixswitch.stage" -type f 2>"$work/stderr")" ] || wrong "$1" "a list or the stage is left"
}

judge_counts() {
    [ "${counted[opens]}" = 1 ] || wrong "$1" "a unit file was opened ${counted[opens]} times"
}

cat >>"$work/count.awk" <<'AWK'
/^(rename|unlink)/ && !/ = -1 / && !/manager"\)/ { puts++ }
/^f(data)?sync/ { syncs++ }
END { print calls + 0, opens + 0, puts + 0, syncs + 0 }
AWK

weight() { echo $((units + entries + users)); }

after_row() {
    shares+="$1: planning takes $(thousandths $((1000 * planned / (least - planned)))) of the acts; "
    shares+="it takes $(thousandths $((1000 * least / unsynced))) times as long as without syncs"$'\n'
}

finish() { printf '%s' "$shares"; }
