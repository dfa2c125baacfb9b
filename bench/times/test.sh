# A test of roots with two systems of so many units: services of ten lines, one in ten with another program in the new system, a
# target that wants them all, and all of them active. Each changed unit is stopped and started, and the target is started.
#
# opens, reads  the most calls that open one unit file, and that read it up to its end
# drafts        new files of the manager's state: one for each act, and one for the loaded definitions
# puts          writes to standard output
# shellcheck shell=bash disable=SC2034,SC2154
default_sizes=(500 4000 16000)
counted_columns=(calls opens reads drafts puts)

# store ROOT: the files of a root's store and of its links into it below /etc, with their checksums.
store() {
    (cd "$1" && find tree/nix/store tree/etc/systemd tree/etc/.clean -type f -print0 | sort -z | xargs -0 cksum)
}

# Makes a machine with two systems of this many units, and what a test of the second should put and leave.
make_size() {
    make_machine "$work/machine" "$1"
    echo "done" >>"$work/wanted"
    {
        echo "loaded /nix/store/new-sys/etc" && cat "$work/active"
        services "$1" 10 | lines stop ' /nix/store/old-sys/etc'
        lines start ' /nix/store/new-sys/etc' <"$work/started"
    } >"$work/manager"
    store "$work/machine" >"$work/store"
}

fresh() {
    rm -rf "$root"
    cp -r "$work/machine" "$root"
}

# Tests the new system, by way of the words given, and sets `status` to how that ended.
act() {
    "$@" "$program" "$root" test nix/store/new-sys >"$work/stdout" 2>"$work/stderr"
    status=$?
}

# The files of the root but for those of the store and the links into it, each with its text.
others() {
    (cd "$root" && find . \( -path ./tree/nix/store -o -path ./tree/etc/systemd -o -path ./tree/etc/.clean \) -prune -o -type f -print0 |
        sort -z | xargs -0 tail -v -n +1)
}

# The files that a test leaves beside the store, each with its text.
wanted_others() {
    printf '==> %s <==\n' ./manager && cat "$work/manager" && echo
    printf '==> %s <==\nL /nix/store/new-sys/etc\n\n' ./tree/etc/static
    printf '==> %s <==\nL /nix/store/new-sys\n' ./tree/run/current-system
}

after() {
    [ "$status" = 0 ] || wrong "$1" "status $status, $(cat "$work/stderr")"
    cmp -s "$work/stdout" "$work/wanted" || wrong "$1" "another output"
    others >"$work/others"
    wanted_others | cmp -s "$work/others" - || wrong "$1" "other files"
    store "$root" | cmp -s - "$work/store" || wrong "$1" "another store"
}

judge_counts() {
    local acts
    acts=$(grep -c -E '^(stop|reload|restart|start) ' "$work/manager")
    [ "${counted[opens]}" = 1 ] || wrong "$1" "a unit file was opened ${counted[opens]} times"
    [ "${counted[drafts]}" = $((acts + 1)) ] || wrong "$1" "${counted[drafts]} states of the manager were written for $acts acts"
}

cat >>"$work/count.awk" <<'AWK'
kind ~ /^open/ && file == root "manager.new" { drafts++ }
/^write\(1</ { puts++ }
END { print calls + 0, opens + 0, reads + 0, drafts + 0, puts + 0 }
AWK

# processor_of PROGRAM: prints the processor time of a test of a new root by this program.
processor_of() {
    fresh
    processor "$1" "$root" test nix/store/new-sys
}

finish() { compare_plain 8000; }
