#!/bin/sh
# Holds the documents and the wrong bodies to the tree, as the first step of the gate.
#
# docs/check.sh [--write]
#
# The crates of crates.txt stand in groups, each below its heading. Each crate has a heading in docs/CRATES.md and a row with
# its group in the table of docs/ARCHITECTURE.md, whose picture has each but those of the tests. What each crate may use and who uses it, in docs/ARCHITECTURE.md, is what
# crates.txt says, without the crates of the kit, and docs/BELIEVED.md is what docs/believed.sh prints: --write writes them
# anew. Each file to which a page links is there. README.md has at most 130 lines, and no cell of it more than 200 characters.
#
# Each wrong body in must-fail/ says by which public clause it is forbidden (`# clause: CRATE FUNCTION CLAUSE`, which stands in
# src/), and for which input the body breaks it (`# why: ..`); each text that it replaces stands once where it is sought, and in
# the body of that function, but for imports. No lemma or definition stands in two files, word for word. Each fault is a line,
# and it ends with 1 where there is one. Needs awk, grep and the coreutils.
cd "$(dirname "$0")/.." || exit 1
page=docs/ARCHITECTURE.md
failed=0

fault() {
    echo "$*" >&2
    failed=1
}

# The crates.
crates() {
    sed -n 's/^\([a-z][a-z0-9_]*\).*:.*/\1/p' crates.txt
}

# Of each crate the crates of the repository that it uses, or with `users` those that use it: a line or more for each.
uses() {
    awk -v of="$1" '
        /^[a-z]/ {
            split($0, sides, ":")
            split(sides[1], words, " ")
            names[++count] = words[1]
            used[words[1]] = sides[2]
        }
        END {
            for (at = 1; at <= count; at++) {
                length_of = split(used[names[at]], words, " ")
                for (one = 1; one <= length_of; one++)
                    if (words[one] in used) {
                        uses[names[at]] = uses[names[at]] " " words[one]
                        users[words[one]] = users[words[one]] " " names[at]
                    }
            }
            for (at = 1; at <= count; at++) {
                line = sprintf("%-16s", names[at])
                length_of = split(of == "users" ? users[names[at]] : uses[names[at]], words, " ")
                for (one = 1; one <= length_of; one++) {
                    if (length(line) + length(words[one]) > 98) {
                        print line
                        line = sprintf("%-16s", "")
                    }
                    line = line "  " words[one]
                }
                sub(/ +$/, "", line)
                print line
            }
        }' crates.txt
}

# A page, from standard input, with these lines in the block below a heading.
with_block() {
    awk -v heading="$1" -v block="$2" '
        $0 == heading { below = 1 }
        inside && /^```$/ { inside = 0; below = 0 }
        !inside { print }
        below && /^```text$/ { inside = 1; print block }'
}

# docs/ARCHITECTURE.md with what crates.txt says.
architecture() {
    with_block "### What each crate may use" "$(uses uses)" <"$page" | with_block "### Who uses each crate" "$(uses users)"
}

if [ "${1:-}" = --write ]; then
    made=$(architecture) && printf '%s\n' "$made" >"$page"
    made=$(docs/believed.sh) && printf '%s\n' "$made" >docs/BELIEVED.md
fi
[ "$(architecture)" = "$(cat "$page")" ] || fault "$page: who uses which crate isn't what crates.txt says: make docs"
[ "$(docs/believed.sh)" = "$(cat docs/BELIEVED.md)" ] || fault "docs/BELIEVED.md: it isn't what the tree says: make docs"

# Each crate, with the heading of its group.
grouped() {
    awk '
        /^# / { group = substr($0, 3); sub(/:.*/, "", group) }
        /^[a-z]/ { sub(/:.*/, ""); print $1, group }' crates.txt
}
ungrouped=$(grouped | while read -r crate group; do
    grep -q "^| $group | \`$crate\` |" "$page" || echo "$page: no row for the crate $crate in the group $group"
done)
[ -z "$ungrouped" ] || fault "$ungrouped"

# The crates in the picture of docs/ARCHITECTURE.md: the first words in its boxes.
pictured() {
    awk '
        /^```/ { if (inside) exit; inside = 1; next }
        inside {
            count = split($0, cells, "|")
            for (at = 2; at < count; at++)
                if (match(cells[at], /^ *[a-z_]+/)) {
                    name = substr(cells[at], 1, RLENGTH)
                    sub(/^ +/, "", name)
                    print name
                }
        }' "$page"
}
unpictured=$({
    pictured | sed 's/$/ pictured/'
    grouped
} | awk -v page="$page" '
    $2 == "pictured" && NF == 2 { shown[$1]; next }
    $2 != "tests" && !($1 in shown) { print page ": the crate " $1 " is not in the picture" }')
[ -z "$unpictured" ] || fault "$unpictured"
for crate in $(crates); do
    grep -q "^## $crate\$" docs/CRATES.md || fault "docs/CRATES.md: no heading for the crate $crate"
done
awk -F '|' '
    /^\|/ {
        for (at = 2; at < NF; at++)
            if (length($at) > 202) {
                print FILENAME ":" FNR ": a cell of more than 200 characters"
                bad = 1
            }
    }
    END { exit bad }' README.md >&2 || failed=1

# The clauses of all functions, and what impls and traits say of themselves: a line for each, with its crate.
clauses() {
    find crates/*/src -name '*.rt' -exec awk '
        FNR == 1 { split(FILENAME, parts, "/"); name = "" }
        /^ *(pub(\([a-z]+\))? )?fn / { name = $0; sub(/^.*fn /, "", name); sub(/[^a-z_0-9].*/, "", name) }
        $1 ~ /^ensures\*?$/ { print parts[2], name, ($2 == "{" ? "ensures" : $2) }
        $1 == "ghost" && $3 == "=" { print parts[2], "-", $2 }' {} +
}

# What is wrong with the lines of the wrong bodies that name a clause.
wrong_clauses() {
    clauses | awk '
        FILENAME == "-" { stands[$0]; next }
        FNR == 1 { files[++count] = FILENAME }
        /^# clause: / {
            sub(/^.*::/, "", $4)
            named[FILENAME] = (($3 " " $4 " " $5) in stands || ($3 " - " $5) in stands) && NF == 5 ? "yes" : "no"
        }
        /^# why: ./ { told[FILENAME] }
        END {
            for (at = 1; at <= count; at++) {
                if (named[files[at]] != "yes")
                    print files[at] ": " (files[at] in named && named[files[at]] == "no" ? "its clause stands nowhere" : "it names no clause")
                if (!(files[at] in told)) print files[at] ": it does not say why"
            }
        }' - crates/*/must-fail/*.edit
}

# The wrong bodies that can't be put in: a text that one replaces stands never or more than once where it is sought. And those
# that lie elsewhere than in the body of the function whose clause they name, in a public one or in that of a trait.
misplaced() {
    awk '
        function text_of(file,   text, line) {
            while ((getline line <file) > 0) text = text line "\n"
            close(file)
            return text
        }
        function count(text, part,   at, found) {
            while ((at = index(text, part)) > 0) {
                found++
                text = substr(text, at + 1)
            }
            return found + 0
        }
        # The function in whose body the text ends, as `impl Path parse`, or an import.
        function place(text, rest,   lines, last, at, line, owner, name, margin, inside) {
            last = split(text, lines, "\n")
            if (lines[last] rest ~ /^use /) return "use"
            for (at = 1; at < last; at++) {
                line = lines[at]
                if (line ~ /^impl/) { owner = line; name = "" }
                if (line ~ /^}/) owner = ""
                if (line ~ /^ *(pub(\([a-z]+\))? )?(const )?fn / && (line ~ /^ *pub/ || owner ~ / for /)) {
                    match(line, /^ */)
                    margin = substr(line, 1, RLENGTH)
                    name = line
                    sub(/^.*fn /, "", name)
                    sub(/[^a-z_0-9].*/, "", name)
                    inside = line ~ /\{$/
                } else if (line ~ /^ *fn /) name = ""
                if (name != "" && line == margin "{") inside = 1
                if (name != "" && line == margin "}") name = ""
            }
            return name == "" || !inside ? "" : owner " " name
        }
        function leave() {
            if (edit != "" && (!fits || astray)) print edit ": it lies outside the body of " wanted
        }
        FNR == 1 { leave(); split("", texts); edit = FILENAME; fits = astray = 0 }
        /^# clause: / {
            wanted = $4
            count_of = split($4, parts, "::")
        }
        /^file: / {
            file = FILENAME
            sub(/must-fail\/.*/, "", file)
            file = file substr($0, 7)
            if (!(file in texts)) texts[file] = text_of(file)
        }
        /^old: / {
            old = substr($0, 6)
            found = count(texts[file], old)
            if (found != 1) print FILENAME ": a text that it replaces stands " found " times in " file
            else {
                at = index(texts[file], old)
                where = place(substr(texts[file], 1, at - 1), old)
                if (where ~ (" " parts[count_of] "$") && (count_of == 1 || where ~ ("[ <]" parts[1] "[ <]"))) fits = 1
                else if (where != "use") astray = 1
            }
        }
        /^new:/ {
            new = substr($0, 5)
            sub(/^ /, "", new)
            at = index(texts[file], old)
            if (at) texts[file] = substr(texts[file], 1, at - 1) new substr(texts[file], at + length(old))
        }
        END { leave() }' crates/*/must-fail/*.edit
}

# The files to which pages link and which aren't there.
broken_links() {
    awk '
        {
            line = $0
            while (match(line, /\]\([^)]*\)/)) {
                target = substr(line, RSTART + 2, RLENGTH - 3)
                line = substr(line, RSTART + RLENGTH)
                sub(/#.*/, "", target)
                if (target == "" || target ~ /^https?:/) continue
                folder = FILENAME
                if (!sub(/\/[^\/]*$/, "/", folder)) folder = ""
                print FILENAME ":" FNR, folder target
            }
        }' README.md docs/*.md | while read -r from to; do
        [ -e "$to" ] || echo "$from: no file $to"
    done
}

# The lemmas and definitions that stand in two files, word for word.
twice() {
    find crates/*/specs crates/*/proofs -name '*.antt' -exec awk '
        BEGIN { RS = ""; FS = "\n" }
        {
            text = ""
            for (at = 1; at <= NF; at++)
                if ($at !~ /^(pub )?use / && $at !~ /^ *--/) text = text $at "\n"
            sub(/^pub /, "", text)
            sub(/^abbrev pub /, "abbrev ", text)
            if (text !~ /^[^ ]/ || text ~ /^(pub )?mod(ule)? / || text ~ /goal\./ || text !~ /\n.*\n/) next
            if (text in first && first[text] != FILENAME) {
                name = text
                sub(/ :.*/, "", name)
                print FILENAME ": " name " stands in " first[text] " too"
            }
            first[text] = FILENAME
        }' {} +
}
both=$(twice)
[ -z "$both" ] || fault "$both"
wrong=$(wrong_clauses)
[ -z "$wrong" ] || fault "$wrong"
lost=$(misplaced)
[ -z "$lost" ] || fault "$lost"
broken=$(broken_links)
[ -z "$broken" ] || fault "$broken"
[ "$(wc -l <README.md)" -le 130 ] || fault "README.md: more than 130 lines"
exit "$failed"
