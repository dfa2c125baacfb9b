#!/bin/sh
# Prints docs/BELIEVED.md: what a reader of the promise must believe, made from the tree.
#
# docs/believed.sh
#
# It begins with the clauses of `run` and of the laws on cut runs (`cut_..` in crates/switch_run), and with those of the traits
# (crates/host_trait), and follows each name of a definition to where it stands, and from there on. docs/check.sh holds the
# page to it, and writes it with --write. Needs find, sort and awk.
cd "$(dirname "$0")/.." || exit 1

# What the proofs stand on and don't show.
trusted() {
    cat <<'END'
- The toolchain: its prover, with the logic and the library of definitions on which these here stand (numbers, lists, orders,
  maps, text, JSON), and its two compilers.
- The C library and the operating system: what files, folders, links, locks and standard output do.
- The hosts of the program. `FolderHost` and `OutSink` (`crates/host_folder`, `crates/host_files`) meet the traits, but tell
  nothing of their world, as no clause says what a real file does. So over them `run` has the clauses on words, causes and
  counts of faults, and those on the world hold as far as a real folder acts as the traits say.
- That a root is a model of a machine: a folder of node files, and a small service manager in a file of text.
END
}

find crates/*/specs crates/*/src -name '*.antt' -o -name '*.rt' | LC_ALL=C sort | xargs awk -v trusted="$(trusted)" '
    # The names that a list in braces gives: what an import brings.
    function bring(line, from,   names, count, at, path, parts, n, alias) {
        sub(/;.*$/, "", line)
        if (line !~ /^Rattle\./) return
        path = line
        sub(/[ {].*$/, "", path)
        sub(/\.$/, "", path)
        if (split(path, parts, ".") < 4 || parts[3] != "specs" || parts[2] == "std") return
        path = parts[2]
        if (parts[4] == "declared") {
            path = "type " parts[2]
            for (n = 5; parts[n] ~ /^[a-z]/; n++) path = path "/" parts[n]
            path = path " " parts[n]
        } else
            for (n = 4; n in parts; n++) path = path "." parts[n]
        if (match(line, / as [A-Za-z_]+/)) {
            alias = substr(line, RSTART + 4, RLENGTH - 4)
            aliased[from, alias] = path
            return
        }
        sub(/^[^{]*[{]/, "", line)
        sub(/}.*$/, "", line)
        count = split(line, names, /, */)
        for (at = 1; at <= count; at++) brought[from, names[at]] = path ~ /^type / ? path : path "." names[at]
    }
    function begin(name, is_data) {
        current = module "." name
        order[++definitions] = current
        file_of[current] = FILENAME
        line_of[current] = FNR
        said[current] = comment
        in_data = is_data
        local[module, name] = current
    }
    # Gathers the words of a line for what they are part of.
    function gather(part, line,   words, count, at) {
        gsub(/--.*$/, "", line)
        gsub(/"[^"]*"/, " ", line)
        count = split(line, words, /[^A-Za-z0-9_.]+/)
        for (at = 1; at <= count; at++)
            if (words[at] ~ /^[A-Za-z_]/ && !((part, words[at]) in cited)) {
                cited[part, words[at]]
                list[part] = list[part] " " words[at]
            }
    }
    FNR == 1 {
        module = FILENAME
        sub(/^crates\//, "", module)
        sub(/\.(antt|rt)$/, "", module)
        is_spec = module ~ /\/specs\//
        sub(/\/specs\//, ".", module)
        gsub(/\//, ".", module)
        if (is_spec) {
            specs[++modules] = module
            path_of[module] = FILENAME
        }
        current = ""
        comment = ""
        in_data = 0
        root = ""
    }
    is_spec && /^ *--/ {
        if ($0 !~ /^ *-- ----/) {
            text = $0
            sub(/^ *-- */, "", text)
            comment = comment (comment == "" ? "" : " ") text
        }
        next
    }
    is_spec && /^(pub )?use / {
        text = $0
        sub(/^(pub )?use /, "", text)
        bring(text, module)
        if ($1 == "pub") passed[module] = passed[module] " " text
        current = ""
        comment = ""
        next
    }
    is_spec && /^ *$/ { comment = ""; next }
    is_spec && /^(  )?((abbrev|unfoldable) (pub )?|pub (record|data) |(record|data) )[A-Za-z_]/ && $1 != "record" || is_spec && /^(  )?(record|data) [A-Za-z_][A-Za-z_0-9]* .*(where|Type)/ {
        name = $1 == "abbrev" || $1 == "unfoldable" ? ($2 == "pub" ? $3 : $2) : $1 == "pub" ? $3 : $2
        begin(name, $0 ~ /data /)
        comment = ""
        gather(current, $0)
        next
    }
    is_spec && /^(pub )?(module|mod|open|infix[lr]?) / { comment = ""; next }
    is_spec && current != "" {
        if (in_data && /^ +[A-Z][A-Za-z]* :/) local[module, $1] = current
        gather(current, $0)
        next
    }
    is_spec { next }
    # ---- code: what it brings, the types, and the clauses with which the page begins
    /^ *ghost use / {
        text = $0
        sub(/^ *ghost use /, "", text)
        bring(text, module)
        next
    }
    /^ *\/\/\/ / && doc == "" { doc = $0; sub(/^ *\/\/\/ /, "", doc); next }
    /^ *\/\/\// { next }
    /^pub (struct|enum|trait) / {
        name = $3
        sub(/[^A-Za-z].*$/, "", name)
        kind = FILENAME
        sub(/^crates\//, "", kind)
        sub(/\/src\//, "/", kind)
        sub(/\.rt$/, "", kind)
        type_line["type " kind " " name] = FNR
        type_file["type " kind " " name] = FILENAME
        type_said["type " kind " " name] = doc
        if ($2 == "trait" && FILENAME ~ /^crates\/host_trait\//) {
            root = "traits"
            traits = traits "- [`" name "`](../" FILENAME "#L" FNR "): " doc "\n"
        }
    }
    /^pub fn run</ && FILENAME == "crates/switch_run/src/top_call.rt" { root = "run"; run_at = FNR }
    /^pub fn cut_/ && FILENAME == "crates/switch_run/src/laws.rt" {
        root = "run"
        name = $3
        sub(/[^a-z_].*$/, "", name)
        laws = laws (laws_count++ ? " and\n" : "") "[`" name "`](../" FILENAME "#L" FNR ")"
    }
    !/^ *#\[/ && !/^ *$/ { doc = "" }
    root != "" {
        module_of[root, module]
        gather(root SUBSEP module, $0)
        if (/^}/ || root == "run" && /^[{]/) root = ""
    }
    # Where a word of a module leads.
    function meant(word, from,   parts, path, n) {
        n = split(word, parts, ".")
        if ((from, parts[1]) in local) return local[from, parts[1]]
        if ((from, parts[1]) in brought) return brought[from, parts[1]]
        if ((from, parts[1]) in aliased && n > 1) {
            path = aliased[from, parts[1]]
            return path ~ /^type / ? path : path "." parts[2]
        }
        return ""
    }
    # The name under which a definition it stands: one may be passed on, and a constructor is its type.
    function standing(name,   owner, last) {
        if (name ~ /^type / || name in file_of) return name
        last = name
        sub(/^.*\./, "", last)
        owner = name
        sub(/\.[^.]*$/, "", owner)
        if ((owner, last) in local) return local[owner, last]
        if ((owner, last) in brought) return standing(brought[owner, last])
        sub(/\.TheConstructors$/, "", owner)
        return owner in file_of ? owner : ""
    }
    function reach(word_list, from, mark,   words, count, at, name) {
        count = split(word_list, words, " ")
        for (at = 1; at <= count; at++) {
            name = meant(words[at], from)
            if (name != "") name = standing(name)
            if (name == "" || name in reached) continue
            reached[name] = mark
            queue[++queued] = name
        }
    }
    function follow(   name, from) {
        while (walked < queued) {
            name = queue[++walked]
            if (name ~ /^type /) continue
            from = name
            sub(/\.[^.]*$/, "", from)
            reach(list[name], from, reached[name])
        }
    }
    function begin_with(which,   pair, parts) {
        for (pair in module_of) {
            split(pair, parts, SUBSEP)
            if (parts[1] == which) reach(list[which SUBSEP parts[2]], parts[2], which)
        }
        follow()
    }
    function short(name) {
        sub(/^.*\./, "", name)
        return name
    }
    function show(mark,   at, name, last) {
        for (at = 1; at <= definitions; at++) {
            name = order[at]
            if (!(name in reached) || reached[name] != mark) continue
            if (file_of[name] != last) {
                last = file_of[name]
                printf "\n[%s](../%s)\n\n", last, last
            }
            printf "- %d `%s`%s\n", line_of[name], short(name), said[name] == "" ? "" : ": " said[name]
        }
    }
    END {
        begin_with("run")
        begin_with("traits")
        for (name in reached) {
            if (name ~ /^type /) continue
            if (reached[name] == "run") behind_run++; else behind_traits++
        }
        printf "<!-- docs/believed.sh makes this page; write it by make docs. -->\n# What must be believed\n\n"
        printf "The prover shows that the code does what the contracts say. That the contracts say what a reader wants is for the reader\n"
        printf "to see. The promise is that of [`run`](../crates/switch_run/src/top_call.rt#L%d) and of the %s\n", run_at, (laws_count > 1 ? "laws" : "law")
        printf "%s, and this page has all on which their clauses stand: of\n", laws
        printf "%d definitions in `specs/` the %d that they reach, and %d more that only the traits reach. The other %d, told at the end,\n", definitions, behind_run, behind_traits, definitions - behind_run - behind_traits
        printf "only help to say what single functions do; a mistake in one of them can make no clause of `run` wrong.\n\n"
        printf "The promise itself is said in `switch_run/specs/Runs.antt` and `Moments.antt` and in `switch_engine/specs/Owing.antt` and\n"
        printf "`Final.antt`; a reader begins there, and goes down to what these name.\n\n"
        printf "## What is trusted\n\n"
        print trusted
        printf "\n## The traits\n\n"
        printf "A host and an output have to keep these contracts; `run` is proved over each that does.\n\n%s", traits
        printf "\n## Types of the code that the definitions name\n\n"
        count = 0
        for (name in reached) if (name ~ /^type / && name in type_line) rows[++count] = "- " type_file[name] ":" type_line[name] " `" substr(name, match(name, / [^ ]*$/) + 1) "`" (type_said[name] == "" ? "" : ": " type_said[name])
        for (at = 2; at <= count; at++) {
            row = rows[at]
            for (n = at - 1; n > 0 && rows[n] > row; n--) rows[n + 1] = rows[n]
            rows[n + 1] = row
        }
        for (at = 1; at <= count; at++) print rows[at]
        printf "\n## The definitions behind `run` and the %s\n", (laws_count > 1 ? "laws" : "law")
        show("run")
        printf "\n## Those that only the traits reach\n"
        show("traits")
        printf "\n## Modules that none of them reaches\n\nTheir definitions stand in contracts of single functions alone.\n"
        for (at = 1; at <= definitions; at++) {
            name = order[at]
            from = name
            sub(/\.[^.]*$/, "", from)
            total[from]++
            if (name in reached) listed[from]++
        }
        for (at = 1; at <= modules; at++) {
            from = specs[at]
            if (from in total && !(from in listed)) {
                crate = from
                sub(/\..*$/, "", crate)
                if (crate != last_crate) printf "\n- `%s`:", crate
                printf "%s %s (%d)", crate == last_crate ? "," : "", substr(from, length(crate) + 2), total[from]
                last_crate = crate
            }
        }
        printf "\n"
    }'
