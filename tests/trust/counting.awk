# What a statement rests on: the definitions that it names, those that they name, and so on down, the types of src/ among them, and the names
# of the kit where that ends. tests/trust.sh hands in, after reading.awk,
#   roots   a file of lines ROW|LABEL|STATEMENT ..|PROOF.., each word of STATEMENT as CRATE.MODULE.NAME, or FILE.rt for what the file exports
#   types   a file of lines FILE:NUMBER:DECLARATION, every struct, enum and alias of the crates, and those of the kit that they and specs/ name
#   kit     the kit's folder, or nothing
#   mode    table, kit, or read with the number of a row in `row`

# ---- all that a row rests on

function reach(row, target,  parts, n, i) {
    if (target == "" || (row, target) in reached) return
    reached[row, target] = 1
    reached_all[target] = 1
    split(target, parts, " ")
    if (parts[1] == "def") { study(parts[2]); n = split(needs[parts[2]], parts, "\n") }
    else if (parts[1] == "type") { study_type(target); n = split(needs[target], parts, "\n") }
    else return
    reach_list(row, parts, n)
}
function reach_list(row, list, n,  i, own) {
    for (i = 1; i <= n; i++) own[i] = list[i]
    for (i = 1; i <= n; i++) reach(row, own[i])
}
function root(row, word,  n, list, i, module) {
    if (word ~ /\.rt$/) {
        n = split(exports(word), list, " ")
        for (i = 1; i <= n; i++) reach(row, "def " list[i])
        return
    }
    match(word, /\.[^.]*$/)
    module = substr(word, 1, RSTART - 1)
    n = split(in_module(module, substr(word, RSTART + 1)), list, "\n")
    reach_list(row, list, n)
}
# counts of a row, or of all rows together for row 0
function tally(row,  target, parts, n, i, list, seen, line) {
    split("", seen)
    t_defs = t_lines = t_types = t_type_lines = t_files = t_all = t_kit = t_kit_lines = t_functions = t_function_lines = 0
    for (target in reached_all) {
        if (row && !((row, target) in reached)) continue
        split(target, parts, " ")
        if (parts[1] == "type") {
            n = split(type_lines[target], list, " ")
            if (parts[2] in crates) { t_types++; t_type_lines += n } else if (n) { t_kit++; t_kit_lines += n }
            continue
        }
        if (parts[1] != "def") continue
        n = split(lines[parts[2]], list, " ")
        if (parts[2] in contract) { t_functions++; t_function_lines += n; continue }
        line = def_module[parts[2]]
        if (is_kit(line)) { t_kit++; for (i = 1; i <= n; i++) if (!((line, list[i]) in seen)) { seen[line, list[i]] = 1; t_kit_lines++ }; continue }
        t_defs++
        for (i = 1; i <= n; i++) if (!((line, list[i]) in seen)) { seen[line, list[i]] = 1; t_lines++ }
        if (!(line in seen)) { seen[line] = 1; t_files++; t_all += length_of[line] }
    }
}
# each proof of a row is there, and is a proof of the statement
function proofs(row,  n, i, w, s, parts, from, line, open, found) {
    n = split(proof[row], w, " ")
    if (n == 0) return
    if (n != split(statement[row], s, " ")) { fail("row " row " has not a proof for each statement"); return }
    for (i = 1; i <= n; i++) {
        split(w[i], parts, ":")
        split(s[i], from, ".")
        found = 0
        open = ""
        while ((getline line < parts[1]) > 0) {
            line = bare(line)
            if (line == "pub " parts[2] " : " from[3]) found += 2
            # the statement's name is the one that specs/ gives that meaning
            if (open != "" || line ~ ("^use Rattle\\." from[1] "\\.specs\\." from[2] "\\.\\{")) open = open " " line
            if (open ~ /}/) { if (open ~ ("[{,] *" from[3] " *[,}]")) found += 1; open = "" }
        }
        close(parts[1])
        if (found != 3) fail(parts[1] " does not prove " s[i] " as " parts[2])
    }
}
function shown(text,  n, i, w, parts, out, file) {
    n = split(text, w, " ")
    for (i = 1; i <= n; i++) {
        if (w[i] ~ /\.rt$/) { split(w[i], parts, "/"); if (!index(out, "`" parts[2] "`")) out = out (out == "" ? "" : ", ") "`" parts[2] "`"; continue }
        split(w[i], parts, ".")
        out = out (out == "" ? "" : ", ") "[`" parts[3] "`](../crates/" parts[1] "/specs/" parts[2] ".antt)"
    }
    return out
}
function proved(text,  n, i, w, parts, out) {
    n = split(text, w, " ")
    for (i = 1; i <= n; i++) { split(w[i], parts, ":"); out = out (out == "" ? "" : ", ") "[`" parts[2] "`](../" parts[1] ")" }
    return out == "" ? "each function's own, by `rt`" : out
}
# the module of the kit in which antt has a type of its src/
function declaring(crate, name,  file) {
    file = declared[crate, name]
    sub(/^.*\/src\//, "", file); sub(/\.rt$/, "", file); gsub(/\//, ".", file)
    return "Rattle." crate ".specs.declared" (file == "" ? "" : "." file)
}
# a bar within a table
function escaped(text,  n, i, parts, out) {
    n = split(text, parts, "|")
    out = parts[1]
    for (i = 2; i <= n; i++) out = out "\\|" parts[i]
    return out
}
function sorted(list, n,  i, j, swap) { for (i = 2; i <= n; i++) for (j = i; j > 1 && list[j] < list[j - 1]; j--) { swap = list[j]; list[j] = list[j - 1]; list[j - 1] = swap } }

BEGIN {
    if (kit != "") libraries()
    while ((getline line < "crates.txt") > 0) if (line ~ /^[a-z]/) crates[substr(line, 1, index(line, ":") - 1)] = 1
    while ((getline line < types) > 0) {
        split(line, p, ":")
        crate = p[1]
        sub(/\/src\/.*$/, "", crate); sub(/^.*\//, "", crate)
        sub(/^(pub )?(struct|enum|type) +/, "", p[3]); match(p[3], /^[A-Za-z0-9_]+/)
        name = substr(p[3], 1, RLENGTH)
        declared[crate, name] = p[1]; declared_at[crate, name] = p[2]
    }
    while ((getline line < roots) > 0) {
        split(line, p, "|")
        rows++
        demand[rows] = p[1]; label[rows] = p[2]; statement[rows] = p[3]; proof[rows] = p[4]
        n = split(p[3], w, " ")
        for (i = 1; i <= n; i++) root(rows, w[i])
        proofs(rows)
    }
    if (!rows) fail("no statement to count")

    if (mode == "table") {
        print "| row | demand | statement | proof | definitions | their lines | types | their lines | files | all their lines |"
        print "|--:|---|---|---|--:|--:|--:|--:|--:|--:|"
        for (r = 1; r <= rows; r++) {
            tally(r)
            at = shown(statement[r])
            if (t_functions) at = "the contracts of the " t_functions " exported functions, " t_function_lines " lines, in " at
            printf "| %d | %s: %s | %s | %s | %d | %d | %d | %d | %d | %d |\n", r, demand[r], label[r], at, proved(proof[r]), t_defs, t_lines, t_types, t_type_lines, t_files, t_all
        }
        tally(0)
        printf "| | all of it, each counted once | | | %d | %d | %d | %d | %d | %d |\n", t_defs, t_lines, t_types, t_type_lines, t_files, t_all
    }
    if (mode == "kit") {
        # the kit's names that the definitions and contracts themselves use
        for (target in reached_all) {
            split(target, p, " ")
            if (p[1] == "def" && !is_kit(def_module[p[2]])) m = split(needs[p[2]], w, "\n"); else continue
            for (i = 1; i <= m; i++) {
                split(w[i], q, " ")
                if (q[1] == "kit") { used[q[2]] = used[q[2]] ((q[2], q[3]) in once ? "" : " " q[3]); once[q[2], q[3]] = 1 }
                if (q[1] == "type" && !(q[2] in crates) && !((q[2], q[3]) in once)) { once[q[2], q[3]] = 1; module = declaring(q[2], q[3]); used[module] = used[module] " " q[3] }
                if (q[1] == "def" && is_kit(def_module[q[2]])) { module = def_module[q[2]]; name = def_name[q[2]]; if (!((module, name) in once)) { once[module, name] = 1; used[module] = used[module] " " name } }
            }
        }
        for (module in used) {
            names[++k] = module
            # a module of the kit's proofs may pass a definition on, and may not have it
            if (kit != "" && module ~ /^Rattle\.[^.]*\.proofs(\.|$)/) fail(module " is no definition: a statement rests on a proof")
        }
        sorted(names, k)
        print "| module of the kit | names |"
        print "|---|---|"
        for (i = 1; i <= k; i++) {
            n = split(used[names[i]], w, " ")
            sorted(w, n)
            text = ""
            for (j = 1; j <= n; j++) { text = text (j > 1 ? ", " : "") "`" escaped(w[j]) "`"; total++ }
            print "| `" names[i] "` | " text " |"
        }
        tally(0)
        printf "\n%d names. The definitions that they come to in the kit's own text, the numbers of `Prim` apart, which have none: %d, in %d lines.\n", total, t_kit, t_kit_lines
    }
    if (mode == "read") {
        if (!(row in statement)) { fail("no row " row); exit 1 }
        for (target in reached_all) if ((row, target) in reached) {
            split(target, p, " ")
            if (p[1] == "kit") continue
            key = p[1] == "def" ? def_module[p[2]] : target
            if (p[1] == "def" && is_kit(key) && !(key in source)) continue
            if (!(key in listed)) { listed[key] = 1; where[++k] = (is_kit(key) || p[1] == "type" && !(p[2] in crates) ? "2 " : p[1] == "type" ? "1 " : "0 ") key }
            wanted[key] = wanted[key] " " (p[1] == "def" ? lines[p[2]] : type_lines[target])
        }
        sorted(where, k)
        for (i = 1; i <= k; i++) {
            key = substr(where[i], 3)
            file = source[key]
            split(key, p, " ")
            if (p[1] == "type" && !(p[2] in crates)) file = "the kit: " declaring(p[2], p[3])
            else if (is_kit(key)) file = "the kit: " key
            if (i > 1) print ""
            if (file != heading) print "==== " file
            heading = file
            n = split(wanted[key], w, " ")
            for (j = 1; j <= n; j++) w[j] += 0
            sorted(w, n)
            last = 0
            for (j = 1; j <= n; j++) {
                if (w[j] == last) continue
                # the comment just above goes with it
                for (c = w[j] - 1; c > last && raw[key, c] ~ /^ *(--|\/\/|#\[)/; c--) ;
                if (c > last && last) print ""
                for (c++; c < w[j]; c++) print raw[key, c]
                print raw[key, w[j]]
                last = w[j]
            }
        }
    }
    exit failed
}
