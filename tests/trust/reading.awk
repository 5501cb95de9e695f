# What the texts of specs/, of src/ and of the kit say, for counting.awk: the definitions of a module with the lines and words of each, what a word
# means, the types of src/, and what a file exports to C. A name that a module of the kit passes on from another (`pub use`) is that other's. A word
# that a definition binds is no name of another; where that is not plain it counts as one. So the count is never too low, and may be a little too high.

function fail(text) { if (!(text in said)) print "trust: " text > "/dev/stderr"; said[text] = 1; failed = 1 }
function exists(file,  line, got) { got = (getline line < file); close(file); return got >= 0 }
# two lists of targets, one a line
function joined(a, b) { return a == "" ? b : b == "" || index("\n" a "\n", "\n" b "\n") ? a : a "\n" b }

# ---- text

function bare(line) { sub(/^--.*$/, "", line); sub(/ +--.*$/, "", line); sub(/[ \t]+$/, "", line); return line }
function indent(line) { match(line, /^ */); return RLENGTH }
function words(line, out,  n) {
    gsub(/«|»/, "", line)
    gsub(/[(){};,]/, " & ", line)
    n = split(line, out, " ")
    return n
}
function before_dot(text,  at) { at = index(text, "."); return at ? substr(text, 1, at - 1) : text }
function after_dot(text,  at) { at = index(text, "."); return at ? substr(text, at + 1) : "" }

# ---- paths: a module CRATE.MODULE of the repository, a module of the kit as it is written, or `type CRATE NAME`

function canonical(path,  rest, crate, parts, n) {
    sub(/\.TheVariants$/, "", path)
    if (index(path, "Rattle.") != 1) return path
    rest = after_dot(path)
    crate = before_dot(rest)
    rest = after_dot(rest)
    if (rest ~ /^specs\.declared\./) {
        n = split(rest, parts, ".")
        return "type " crate " " parts[n]
    }
    if (!(crate in crates)) return path
    if (!sub(/^specs\./, "", rest)) { fail(path " is no definition: a statement rests on a proof"); return "none" }
    return crate "." rest
}
# the path as a use line of the module means it: from the root, from a module that another use line brings, or from a child
function rooted(module, path,  head) {
    sub(/^package\./, "", path)
    head = before_dot(path)
    if (head == "Rattle" || head == "Prim" || head in library) return canonical(path)
    if ((module, head) in alias) return alias[module, head] (path == head ? "" : "." after_dot(path))
    return is_kit(module) ? module "." path : canonical(path)
}
function is_kit(module) { return module !~ /[\/ ]/ && !(before_dot(module) in crates) }
function file_of(module,  head, rest, folder, i) {
    head = before_dot(module)
    rest = after_dot(module)
    if (is_kit(module)) {
        if (kit == "") return ""
        if (head == "Rattle") { folder = kit "/" before_dot(rest); rest = after_dot(rest) }
        else if (head in library) folder = kit "/logic/" library[head]
        else return ""
    } else folder = "crates/" head "/specs"
    gsub(/\./, "/", rest)
    rest = folder (rest == "" ? "" : "/" rest)
    if (exists(rest ".antt") || !is_kit(module)) return rest ".antt"
    if (exists(rest "/Lib.antt")) return rest "/Lib.antt"
    # a library whose files are in src/
    rest = folder "/src" substr(rest, length(folder) + 1)
    if (exists(rest ".antt")) return rest ".antt"
    return exists(rest "/Lib.antt") ? rest "/Lib.antt" : ""
}
# where each library of the kit is
function libraries(  line, name, src, inside) {
    while ((getline line < (kit "/logic/antt-project.json")) > 0) {
        if (line ~ /"mounts"/) inside = 1
        else if (line ~ /[}]/) inside = 0
        else if (inside && line ~ /"[^"]*" *: *"[^"]*"/) {
            name = line; sub(/^[^"]*"/, "", name); sub(/".*$/, "", name)
            src = line; sub(/^[^:]*: *"/, "", src); sub(/".*$/, "", src)
            library[name] = src
        }
    }
}
# the module that a path leads to, where a module of the kit passes another on
function resolved(module,  parent, last) {
    if (kit == "" || !is_kit(module) || module ~ /^Prim(\.|$)/) return module
    if (module in leads) return leads[module]
    leads[module] = module
    if (file_of(module) == "") {
        last = module; sub(/^.*\./, "", last)
        parent = substr(module, 1, length(module) - length(last) - 1)
        if (parent != "") {
            parent = resolved(parent)
            load(parent)
            if ((parent, last) in passes) leads[module] = resolved(passes[parent, last])
        }
        if (leads[module] == module) fail("the kit has no module " module)
    }
    return leads[module]
}

# ---- a module: its definitions with the lines and words of each, and what its names mean

# a name, and of an operator, ◌&&◌ or ¬◌, the words that it is written with
function spellings(name, out,  n, i, parts, k) {
    out[k = 1] = name
    n = split(name, parts, "◌")
    if (n > 1) for (i = 1; i <= n; i++) if (parts[i] != "") out[++k] = parts[i]
    return k
}
function name_in(module, name, def, builder,  n, i, w) {
    n = spellings(name, w)
    for (i = 1; i <= n; i++) {
        # one name is one thing, but for constructors of two types
        here[module, w[i]] = joined(here[module, w[i]], "def " def)
        if (builder) constructor[def, w[i]] = 1
    }
}
function import_line(module, text,  path, names, n, i, parts, item, name, m, j, w, at, passing) {
    passing = text ~ /^([a-z]+ +)*pub +use /
    sub(/^([a-z]+ +)*use +/, "", text); sub(/ *;$/, "", text)
    if (text ~ /\.\*$/) { globs[module] = globs[module] " " rooted(module, substr(text, 1, length(text) - 2)); return }
    if (!index(text, ".{")) {
        n = split(text, parts, " ")
        name = parts[n]; sub(/^.*\./, "", name)
        path = rooted(module, parts[1])
        alias[module, name] = path
        if (passing) passes[module, name] = path
        return
    }
    path = rooted(module, substr(text, 1, index(text, ".{") - 1))
    names = substr(text, index(text, ".{") + 2)
    sub(/[}].*$/, "", names)
    gsub(/«|»/, "", names)
    n = split(names, parts, ",")
    for (i = 1; i <= n; i++) {
        m = split(parts[i], w, " ")
        if (!m) continue
        item = w[1]; name = w[m]
        # an item of a module below
        at = path
        while (item ~ /^[A-Za-z_0-9]+\./) { at = at "." before_dot(item); item = after_dot(item) }
        if (m == 1) name = item
        m = spellings(name, w)
        for (j = 1; j <= m; j++) {
            imports[module, w[j]] = joined(imports[module, w[j]], at "\t" item)
            if (passing) passed[module, w[j]] = 1
        }
    }
}
function add(def, number, text) { if (def) { lines[def] = lines[def] " " number; texts[def, ++count[def]] = text } }

# 1 for a signature, 2 for a record or a data type, 0 for anything else; the name in `heading`
function heads(line,  w, n, i, depth, marked) {
    n = words(line, w)
    for (i = 1; i <= n && w[i] ~ /^(pub|abbrev|unfoldable|pattern|axiom)$/; i++) marked = 1
    if (i > n) return 0
    if ((w[i] == "record" || w[i] == "data") && i < n && w[i + 1] != "{") { heading = w[i + 1]; return 2 }
    heading = w[i]
    if (marked) return 1
    for (i++; i <= n; i++) {
        if (w[i] ~ /^[({]$/) depth++
        else if (w[i] ~ /^[)}]$/) depth--
        else if (!depth && w[i] == ":") return 1
        else if (!depth && (w[i] == "=" || i == 2)) return 0
    }
    return 0
}
function load(module,  file, line, text, number, def, at, kind, open, w, n, i, depth, sections, before) {
    if (module in loaded) return
    loaded[module] = 1
    file = file_of(module)
    if (file == "" || !exists(file)) { if (!is_kit(module)) fail("no " file); return }
    source[module] = file
    while ((getline line < file) > 0) {
        number++
        raw[module, number] = line
        text = bare(line)
        if (open != "") {
            open = open " " text
            if (index(text, "}")) { import_line(module, open); open = "" }
            continue
        }
        if (text ~ /^([a-z]+ +)*use /) {
            if (index(text, "{") && !index(text, "}")) open = text; else import_line(module, text)
            def = 0
            continue
        }
        if (text == "") continue
        at = indent(text)
        while (sections && at <= section_at[sections]) sections--
        if (text ~ /^ *module /) { def = 0; section_at[++sections] = at; section_line[sections] = number; section_text[sections] = text; continue }
        if (text ~ /^ *(pub +)?(mod|infix|infixl|infixr|mutual|syntax|ruleset|open) /) { def = 0; continue }
        if (def && at > def_at) { add(def, number, text); if (kind == 2) constructors(module, def, text, at); continue }
        i = heads(text)
        if (i) {
            kind = i
            def = ++defs
            def_at = at
            def_name[def] = heading; def_module[def] = module; def_kind[def] = kind; def_first[def] = number
            name_in(module, heading, def, 0)
            body_at = -1
            is_data = text ~ /(^| )data /
            for (i = 1; i <= sections; i++) add(def, section_line[i], section_text[i])
        }
        add(def, number, text)
    }
    close(file)
    length_of[module] = number
}
function constructors(module, def, text, at,  w, n, i) {
    if (body_at < 0) body_at = at
    if (!is_data || at != body_at) return
    n = words(text, w)
    for (i = 1; i <= n && w[i] != ":"; i++) if (w[i] == "(" || w[i] == "{") return
    if (i > n) return
    for (i = 1; w[i] != ":"; i++) name_in(module, w[i], def, 1)
}

# ---- what a word of a module means, one target a line: `def N`, `type CRATE NAME`, `kit MODULE NAME`, or nothing

function in_module(module, name, quiet) {
    module = resolved(module)
    load(module)
    if ((module, name) in here) return here[module, name]
    if ((module, name) in passed) return imported(module, name)
    if (is_kit(module) && !(module in source)) return "kit " module " " name
    if (!quiet) fail(name " is not found in " module)
    return ""
}
function imported(module, word,  list, n, i, parts, out) {
    n = split(imports[module, word], list, "\n")
    for (i = 1; i <= n; i++) {
        split(list[i], parts, "\t")
        out = joined(out, parts[1] ~ /^type / ? parts[1] : in_module(parts[1], parts[2]))
    }
    return out
}
function named(module, word,  n, i, parts, out) {
    if ((module, word) in here) return here[module, word]
    if ((module, word) in imports) return imported(module, word)
    n = split(globs[module], parts, " ")
    for (i = 1; i <= n; i++) { load(parts[i]); if ((parts[i], word) in here) return here[parts[i], word] }
    # a part of an operator with a place left open, as ◌+ or +◌
    if ((n = split(word, parts, "◌")) < 2) return ""
    for (i = 1; i <= n; i++) if (parts[i] != "") out = joined(out, named(module, parts[i]))
    return out
}
# a name below a module: of it, or of a module below it; what stands behind it are fields
function below(path, rest, quiet,  out, next_one) {
    if (path ~ /^type /) return path
    out = in_module(path, before_dot(rest), 1)
    if (out != "") return out
    next_one = path "." before_dot(rest)
    if (rest ~ /\./ && exists(file_of(next_one))) return below(next_one, after_dot(rest), quiet)
    if (!quiet) fail(rest " is not found in " path)
    return ""
}
# a module that is written out, library first
function written_out(word,  parts, n, i, path, out) {
    n = split(word, parts, ".")
    path = parts[1]
    for (i = 2; i < n; i++) {
        path = path "." parts[i]
        if (parts[1] == "Rattle" && i < 4) continue
        if (file_of(canonical(path)) != "" && (out = in_module(canonical(path), parts[i + 1], 1)) != "") return out
    }
    fail(word " is not found")
    return ""
}
function meaning(module, word,  head, out) {
    if (word ~ /^\./) return ""
    sub(/\.+$/, "", word)
    head = before_dot(word)
    if (head == word) return named(module, word)
    # a field of what has that name, or a name of the module that has it
    out = named(module, head)
    if ((module, head) in alias) out = joined(out, below(alias[module, head], after_dot(word), out != ""))
    else if (out == "" && (head == "Rattle" || head in library)) out = written_out(word)
    return out
}
function builds(module, word,  list, n, i, parts) {
    if (index(word, ".") > 1) return 1
    n = split(named(module, word), list, "\n")
    for (i = 1; i <= n; i++) {
        split(list[i], parts, " ")
        if (parts[1] != "def" || (parts[2], word) in constructor) return 1
    }
    return 0
}
function learn(def, word,  head, list, n, i) {
    if (word ~ /^\./) return
    head = before_dot(word)
    if (head in bound) {
        # a field of what is bound; where a module has that name too, it counts as well
        if (word !~ /\../ || !((def_module[def], head) in alias)) return
        word = below(alias[def_module[def], head], after_dot(word), 1)
    } else word = meaning(def_module[def], word)
    n = split(word, list, "\n")
    for (i = 1; i <= n; i++) if (list[i] != "def " def) needs[def] = needs[def] "\n" list[i]
}

# what a definition names
function study(def,  i, j, k, n, w, first, clause, depth, equal) {
    if (def in studied) return
    studied[def] = 1
    split("", bound)
    for (i = 1; i <= count[def]; i++) {
        n = words(texts[def, i], w)
        # a clause of a function: it begins at the definition's own indent, behind the signature, and not with a closing brace
        if (def_kind[def] == 1 && indent(texts[def, i]) == indent(texts[def, signature(def)]) && i > signature(def) && w[1] != "}") {
            split("", bound)
            equal = 0
            for (j = 1; j <= n && !equal; j++) if (w[j] == "=") equal = j
            for (j = 1; j < equal; j++) if (!builds(def_module[def], w[j]) && meaning(def_module[def], w[j]) != "def " def) bound[w[j]] = 1
        }
        for (j = 1; j <= n; j++) {
            # names before a colon are bound from here on; those before an equals sign are fields
            if (w[j + 1] == "=" && j < n) continue
            for (k = j; k <= n && w[k] !~ /^[(){};,=:]$/; k++) ;
            if (k <= n && w[k] == ":" && (j == 1 || w[j - 1] ~ /^[({]$/)) {
                if (def_kind[def] == 2 || j > 1) for (; j < k; j++) if (w[j] !~ /^(pub|record|data|abbrev|unfoldable)$/ && w[j] != def_name[def] && !builds(def_module[def], w[j])) bound[w[j]] = 1
                j = k
                continue
            }
            learn(def, w[j])
        }
    }
}
function signature(def,  i) {
    for (i = 1; i <= count[def]; i++) if (texts[def, i] !~ /^ *module /) return i
    return 1
}

# ---- types of src/, and what a file exports to C

# the use lines of a file: for each name the crate that it is from and what it is called there, and whether the file passes it on
function rust_uses(file, crate,  line, open, head, names, parts, n, i, w, m) {
    if (file in uses_read) return
    uses_read[file] = 1
    while ((getline line < file) > 0) {
        sub(/ *\/\/.*$/, "", line)
        if (open == "" && line !~ /^(pub )?use /) continue
        open = open " " line
        if (!index(line, ";")) continue
        head = open; sub(/^ *(pub )?use +/, "", head); sub(/::.*$/, "", head)
        names = open; sub(/;.*$/, "", names); sub(/^[^{]*[{]/, "", names); sub(/^ *(pub )?use +/, "", names); gsub(/[{}]/, "", names)
        n = split(names, parts, ",")
        for (i = 1; i <= n; i++) if (m = split(parts[i], w, " ")) {
            sub(/^.*::/, "", w[1]); sub(/^.*::/, "", w[m])
            use_of[file, w[m]] = head in crates ? head : crate
            use_called[file, w[m]] = w[1]
            if (open ~ /^ *pub /) pub_use[file, w[m]] = 1
        }
        open = ""
    }
    close(file)
}
# the type that a name means which a file brings in, or its crate declares
function type_used(file, name, crate) { return (file, name) in use_of ? type_file(use_of[file, name], use_called[file, name]) : type_file(crate, name) }
function type_file(crate, name,  file) {
    if ((crate, name) in declared) return "type " crate " " name
    file = "crates/" crate "/src/lib.rt"
    rust_uses(file, crate)
    return (file, name) in pub_use && use_of[file, name] != crate ? type_used(file, name, crate) : ""
}
function type_in(file, name, crate) { rust_uses(file, crate); return type_used(file, name, crate) }
function study_type(key,  parts, crate, name, file, first, line, number, text, more, n, i, w, done) {
    if (key in studied_type) return
    studied_type[key] = 1
    split(key, parts, " ")
    crate = parts[2]; name = parts[3]
    # where there is no kit, a type of its own is not counted
    if (kit == "" && !(crate in crates)) return
    if (!((crate, name) in declared)) { fail("the type " name " of " crate " is not declared in crates/, and is not counted"); return }
    file = declared[crate, name]; first = declared_at[crate, name]
    source[key] = file
    done = 0
    while ((getline line < file) > 0) {
        number++
        raw[key, number] = line
        if (number < first || done) continue
        text = line
        sub(/ *\/\/.*$/, "", text)
        if (text == "") continue
        if (text ~ /^ *ghost /) fail(file ": what " name " says of its ghost fields is not counted")
        type_lines[key] = type_lines[key] " " number
        more = more " " (number > first && text ~ /:/ ? substr(text, index(text, ":")) : text ~ /^(pub )?type / ? substr(text, index(text, "=")) : text ~ /\(/ ? substr(text, index(text, "(")) : "")
        if (text ~ /^[}]/ || (number == first && text ~ /[;}]$/)) done = 1
    }
    close(file)
    # those of the kit name no type but their parameters
    if (!(crate in crates)) return
    gsub(/[^A-Za-z0-9_]/, " ", more)
    n = split(more, w, " ")
    for (i = 1; i <= n; i++) if (w[i] ~ /^[A-Z]/) {
        if ((text = type_in(file, w[i], crate)) != "") needs[key] = needs[key] "\n" text
        else if (w[i] ~ /^(Option|Result)$/) needs[key] = needs[key] "\ntype core " w[i]
        else fail(file ": the type " w[i] " of " name " is not found")
    }
}
# the functions of a file that C calls, each as a definition: its signature and its contract
function exports(file,  crate, parts, line, number, last, def, marked, list, w, n, i, open, text) {
    if (file in exported) return exported[file]
    split(file, parts, "/")
    crate = parts[2]
    while ((getline line < file) > 0) raw[file, ++last] = line
    close(file)
    for (number = 1; number <= last; number++) {
        line = raw[file, number]
        if (line ~ /^ghost use / || open != "") {
            open = open " " line
            if (index(line, ";")) { sub(/^ +/, "", open); import_line(file, open); open = "" }
            continue
        }
        if (line ~ /^#\[unsafe\(no_mangle\)\]/) marked = 1
        if (marked && line ~ /^pub extern "C" fn /) {
            def = ++defs
            def_name[def] = line
            sub(/^pub extern "C" fn /, "", def_name[def]); sub(/\(.*$/, "", def_name[def])
            def_module[def] = file; source[file] = file; def_first[def] = number
            studied[def] = 1
            contract[def] = 1
            split("", bound)
            list = list " " def
            marked = 0
        }
        if (line == "{") def = 0
        if (def && line ~ /^ *requires/) fail(def_name[def] " asks something of its caller, and no prover sees a caller in C")
        if (def) {
            lines[def] = lines[def] " " number
            sub(/^pub extern "C" fn [a-z_]*/, "", line)
            n = words(line, w)
            for (i = 1; i <= n; i++) if (w[i] ~ /:$/) bound[substr(w[i], 1, length(w[i]) - 1)] = 1
            for (i = 1; i <= n; i++) {
                text = w[i]; gsub(/[^A-Za-z0-9_]/, "", text)
                if (text !~ /^Cetskobi/) { learn(def, w[i]); continue }
                if ((text = type_in(file, text, crate)) != "") needs[def] = needs[def] "\n" text
                else fail(file ": no type " w[i])
            }
        }
    }
    length_of[file] = last
    return exported[file] = list
}
