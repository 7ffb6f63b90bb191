# What .ci/pages writes. First everything is read: definitions and statements with the comments above them and the names that they use; functions with their contracts; edits. Then the two pages are printed.
# A definition's key is crate.Module.name, and it is shown without the crate where that is `layout`; a function's is crate::name, or module::name in the face.

function shown(key) { sub(/^layout\./, "", key); return key }
function path_of(key, part) { split(key, part, "."); return "crates/" part[1] "/specs/" part[2] ".antt" }
function linked(key) { return "[`" shown(key) "`](../" path_of(key) ")" }
function add(list, item) { return list == "" ? item : list "\n" item }
function commas(list, item) { return list == "" ? item : list ", " item }

# A line of a declaration behind those before it.
function joined(text, line) {
    text = text (text == "" ? "" : " ") line
    gsub(/\( /, "(", text); gsub(/,? \)/, ")", text)
    return text
}

# The names of a `use` line, as this file knows them.
function import(line, crate, rest, names, n, i) {
    if (line !~ /Rattle\..*specs\.[A-Za-z]+\.\{/) return
    sub(/^.*Rattle\./, "", line)
    match(line, /^[a-z_]+/); crate = substr(line, 1, RLENGTH)
    rest = line; sub(/\.\{.*/, "", rest); sub(/^.*specs\./, "", rest)
    if (rest ~ /\./) return
    sub(/^.*\{/, "", line); sub(/\}.*/, "", line)
    n = split(line, names, /, */)
    for (i = 1; i <= n; i++) known[FILENAME, names[i]] = crate "." rest "." names[i]
}

# The keys that a text uses; field projections, as ` .records`, are no names.
function uses_of(text, file, word, n, i, list, key, met) {
    gsub(/[(){},;|\[\]]/, " ", text)
    n = split(text, word, /[ \t\n]+/)
    split("", met)
    for (i = 1; i <= n; i++) {
        key = (file SUBSEP word[i]) in known ? known[file, word[i]] : ""
        if (key != "" && !(key in met)) { met[key] = 1; list = add(list, key) }
    }
    return list
}

function close_def() { if (def != "") { body[def] = text; def = "" } }

FNR == 1 {
    close_def(); fn = ""; comment = ""; section = ""; title = ""; in_title = 1
    split(FILENAME, part, "/")
    kind = FILENAME ~ /\.antt$/ ? "specs" : FILENAME ~ /\.rt$/ ? "src" : FILENAME ~ /\.edit$/ ? "edit" : FILENAME ~ /\.h$/ ? "header" : "list"
    crate = part[2]
    base = part[4]; sub(/\.[a-z]+$/, "", base)
    if (kind == "edit") edit = crate "/" base
    if (kind == "specs" && base != "Lib") { module_key = crate "." base; if (crate == "layout" || crate == "demands") modules[++module_count] = module_key }
}

# ---- the hand-kept list, and the order of the C calls

kind == "list" && /^[a-z_:]+: / {
    name = $0; sub(/: .*/, "", name)
    refusals[name] = substr($0, length(name) + 3)
    if (name ~ /::/) face[++face_count] = name
}
kind == "header" && /^casm_[a-z]+ casm_[a-z_]+\(/ { name = $2; sub(/\(.*/, "", name); c_calls[++c_count] = name; declared[name] = ""; in_sig = 1 }
kind == "header" && in_sig { line = $0; sub(/^ +/, "", line); declared[name] = joined(declared[name], line); if (/;$/) in_sig = 0 }

# ---- edits

kind == "edit" && FNR <= 2 && /^why: / { why[edit] = substr($0, 6) }
kind == "edit" && FNR <= 2 && /^of: / {
    n = split(substr($0, 5), part, /, */)
    for (i = 1; i <= n; i++) {
        if (!(part[i] in guards)) guarded[++guard_count] = part[i]
        guards[part[i]] = add(guards[part[i]], edit)
    }
}

# ---- definitions

kind == "specs" && in_title { if (/^-- /) { title = title (title == "" ? "" : " ") substr($0, 4); title_of[module_key] = title } else in_title = 0 }
kind == "specs" && /^(pub )?use / { import($0) }
kind == "specs" && /^ *-- ---- / { close_def(); section = $0; sub(/^ *-- ---- /, "", section); comment = "" }
kind == "specs" && /^ *-- / && !/^ *-- ---- / && def == "" { line = $0; sub(/^ *-- /, "", line); comment = comment (comment == "" ? "" : " ") line }
kind == "specs" && /^ *$/ { close_def(); comment = "" }
kind == "specs" && def == "" && (/^ *(unfoldable |abbrev )pub / || /^pub (record |data )/ || /^pub [a-zA-Z_-]+ :/) {
    name = $0
    sub(/^ *(unfoldable |abbrev )?pub (record |data )?/, "", name); sub(/[ :].*/, "", name)
    def = module_key "." name
    known[FILENAME, name] = def
    order[++def_count] = def
    file_of[def] = FILENAME
    said[def] = comment != "" ? comment : section
    text = ""; comment = ""
}
kind == "specs" && def != "" { text = text "\n" $0 }

# ---- functions

kind == "src" && /^(pub |ghost )*use / { import($0) }
kind == "src" && /^pub use [a-z_:]+;/ && crate == "casm" {
    name = $0; sub(/^pub use /, "", name); sub(/;.*/, "", name)
    n = split(name, part, "::"); passed[base "::" part[n]] = part[1] "::" part[n]
}
kind == "src" && /^\/\/ / { comment = comment (comment == "" ? "" : " ") substr($0, 4) }
kind == "src" && /^ *$/ { comment = "" }
# The exports of c_export_c are the calls of c_export again.
kind == "src" && crate != "c_export_c" && /^(pub |pub\(crate\) )?(extern "C" )?fn / {
    name = $0; sub(/^.*fn /, "", name); sub(/[(<].*/, "", name)
    fn = crate == "casm" ? base "::" name : crate == "c_export" ? name : crate "::" name
    if (fn in signature) fn = fn " of " base
    functions[++fn_count] = fn
    public[fn] = /^pub (extern "C" )?fn/; crate_of[fn] = crate; source[fn] = FILENAME
    about[fn] = comment; comment = ""; signature[fn] = ""; in_sig = 1
}
kind == "src" && fn != "" && in_sig && /^(    (requires|ensures) |\{)/ { in_sig = 0 }
kind == "src" && fn != "" && in_sig { line = $0; sub(/^ +/, "", line); sub(/ *\{$/, "", line); signature[fn] = joined(signature[fn], line) }
kind == "src" && fn != "" && /^    (requires|ensures) / {
    line = $0; sub(/^[^{]*\{ */, "", line); sub(/ *\}$/, "", line)
    contract[fn] = contract[fn] " " line
    if (/^    ensures/) promise[fn] = add(promise[fn], line)
}
kind == "src" && fn != "" && /casm::[a-z]+::[a-z_]+\(/ {
    line = $0; match(line, /casm::[a-z]+::[a-z_]+\(/); made[fn] = substr(line, RSTART + 6, RLENGTH - 7)
}
kind == "src" && /^\}/ { fn = "" }

# ---- what rests on what

# Marks all that a key uses, by way of every definition.
function reach(key, mark, n, i, item) {
    if ((mark SUBSEP key) in reached) return
    reached[mark, key] = 1
    n = split(uses[key], item, "\n")
    for (i = 1; i <= n; i++) reach(item[i], mark)
}

# The layout's definitions that a contract speaks of, by way of the crate's own words alone.
function speaks(key, f, n, i, item) {
    if ((f SUBSEP key) in spoken) return
    spoken[f, key] = 1
    if (key ~ /^layout\./) return
    n = split(uses[key], item, "\n")
    for (i = 1; i <= n; i++) speaks(item[i], f)
}

# ---- printing

function complain(text) { print "pages: " text > "/dev/stderr"; bad = 1 }
function call_link(name, slug) { slug = name; gsub(/[^a-z0-9_-]/, "", slug); return "[`" name "`](#" slug ")" }

# The edits that guard a name, a line each.
function wrong(name, indent, n, i, item, e) {
    told[name] = 1
    n = split(guards[name], item, "\n")
    for (i = 1; i <= n; i++) { split(item[i], e, "/"); printf "%s- [`%s`](../crates/%s/must-fail/%s.edit): %s\n", indent, item[i], e[1], e[2], why[item[i]] >> page }
}

# A statement of demands: a name in capitals that is a proposition, and the examples.
function is_statement(d, name) {
    if (d !~ /^demands\./) return 0
    name = d; sub(/^.*\./, "", name)
    return name ~ /xample/ || (name ~ /^[A-Z]/ && body[d] ~ /^\n[^\n→]*: Type [0-9]/)
}

# The statements that speak of a key, by way of the words of the crates of laws.
function stated(key, i, list, n) {
    for (i = 1; i <= def_count; i++) if (is_statement(order[i]) && (order[i] SUBSEP key) in spoken) { n++; list = commas(list, linked(order[i])) }
    return n > 8 ? n " statements" : list
}

# The statements whose comments name a call.
function naming(name, i, list) {
    sub(/^.*::/, "", name)
    for (i = 1; i <= def_count; i++) if (is_statement(order[i]) && (" " said[order[i]] " ") ~ ("[^a-z_]" name "[^a-z_]")) list = commas(list, linked(order[i]))
    return list
}

# One call, whose contract is that of function f.
function one_call(name, f, n, i, item, list) {
    list = (name in declared) ? declared[name] : signature[f]
    printf "\n### %s\n\n%s\n\n    %s\n\n", name, about[f], list >> page
    n = split(promise[f], item, "\n")
    for (i = 1; i <= n; i++) printf "- promises `%s`\n", item[i] >> page
    n = split(uses_of(contract[f], source[f]), item, "\n")
    for (i = 1; i <= n; i++) if (item[i] ~ /\.[A-Z][A-Za-z]*$/) {
        printf "- %s: %s\n", linked(item[i]), said[item[i]] >> page
        list = crate_of[f] == "c_export" ? "" : stated(item[i])
        if (list != "") printf "- stated of it: %s\n", list >> page
    }
    list = crate_of[f] == "c_export" || crate_of[f] == "casm_by_value" ? naming(name) : ""
    if (list != "") printf "- stated of it by name: %s\n", list >> page
    if (name in refusals && refusals[name] !~ /^as /) printf "- refusals in order: %s\n", refusals[name] >> page
    else if (name in refusals) printf "- answers as %s\n", call_link(substr(refusals[name], 4)) >> page
    else if (f in made) printf "- answers as %s, which it calls: its refusals and its wrong programs count here too\n", call_link(made[f]) >> page
    else complain("no refusals of " name " in .ci/refusals, and no call of the face in it")
    if (guards[name] != "") { printf "- wrong programs that are refused:\n" >> page; wrong(name, "  ") }
}

# The public functions of a crate that no list has.
function unlisted(crate, where, i) {
    for (i = 1; i <= fn_count; i++) if (public[functions[i]] && crate_of[functions[i]] == crate && !(functions[i] in listed)) complain("not in " where ": " functions[i])
}

function promises_page(i, f) {
    printf "\n## The calls of the face\n" >> page
    for (i = 1; i <= face_count; i++) {
        f = (face[i] in passed) ? passed[face[i]] : face[i]
        if (!(f in signature)) { complain(".ci/refusals has " face[i] ", and the face does not"); continue }
        listed[f] = 1
        one_call(face[i], f)
    }
    unlisted("casm", ".ci/refusals")
    printf "\n## By value, for programs\n" >> page
    for (i = 1; i <= fn_count; i++) if (public[functions[i]] && crate_of[functions[i]] == "casm_by_value") one_call(functions[i], functions[i])
    printf "\n## The calls for C\n" >> page
    for (i = 1; i <= c_count; i++) {
        f = c_calls[i]
        if (!(f in signature)) { complain("include/casm.h has " f ", and crates/c_export does not"); continue }
        listed[f] = 1
        one_call(f, f)
    }
    unlisted("c_export", "include/casm.h")
}

# A comment quotes a document where it has a phrase in quotes, and not only a tag.
function quotes(text) { return text ~ /"[^" ]+ [^"]*"|`[^`]+ [^`]+ [^`]+`/ }

# The modules of demands, and the statements, that quote a sentence which this comment quotes too: of each quotation its parts of 24 letters or more.
function quoted_again(text, n, i, k, j, m, phrase, piece, list, met) {
    n = split(tolower(text), phrase, "\"")
    for (i = 2; i <= n; i += 2) {
        k = split(phrase[i], piece, / *(\.\.|[.;:]) */)
        for (j = 1; j <= k; j++) {
            if (length(piece[j]) < 24) continue
            for (m = 1; m <= module_count; m++) if (modules[m] ~ /^demands\./ && index(tolower(title_of[modules[m]]), piece[j]) && !(modules[m] in met)) { met[modules[m]] = 1; list = commas(list, linked(modules[m])) }
            for (m = 1; m <= def_count; m++) if (is_statement(order[m]) && index(tolower(said[order[m]]), piece[j]) && !(order[m] in met)) { met[order[m]] = 1; list = commas(list, linked(order[m])) }
        }
    }
    return list
}

# A definition that quotes a sentence, and what rests on it.
function definition(d, i, k, list) {
    printf "- %s: %s\n", linked(d), said[d] >> page
    for (i = 1; i <= promise_count; i++) if ((promised[i] SUBSEP d) in reached && promised[i] != d) { k++; list = commas(list, "`" substr(promised[i], length("layout.Promises.") + 1) "`") }
    if (k > 0) printf "  - promises that rest on it: %s\n", (k > 6 ? k " of " promise_count : list) >> page
    list = ""; k = 0
    for (i = 1; i <= fn_count; i++) if ((functions[i] SUBSEP d) in spoken) { k++; list = commas(list, "`" functions[i] "`") }
    if (k > 0) printf "  - functions whose contracts speak of it: %s\n", (k > 12 ? k : list) >> page
    list = stated(d)
    if (list != "") printf "  - stated of it: %s\n", list >> page
    list = quoted_again(said[d])
    if (list != "") printf "  - its sentence again in: %s\n", list >> page
    if (guards[shown(d)] != "") { printf "  - wrong programs that are refused:\n" >> page; wrong(shown(d), "    ") }
    else without = commas(without, "`" shown(d) "`")
}

# The definitions of the layout in reading order; a module that the order does not name comes last.
function definitions(n, i, m, item, placed, sequence, count, headed) {
    printf "\n## The definitions\n" >> page
    n = split("Bytes Style Body Sdec Group Ranges Records Asked Voice Plays Place Write Edit Screen Salvage Answers Refusals", item, " ")
    for (i = 1; i <= n; i++) { sequence[++count] = "layout." item[i]; placed["layout." item[i]] = 1 }
    for (i = 1; i <= module_count; i++) if (modules[i] ~ /^layout\./ && !(modules[i] in placed)) sequence[++count] = modules[i]
    for (m = 1; m <= count; m++) {
        headed = 0
        for (i = 1; i <= def_count; i++) {
            if (index(order[i], sequence[m] ".") != 1 || !quotes(said[order[i]])) continue
            if (!headed) { printf "\n### %s\n\n%s\n\n", shown(sequence[m]), title_of[sequence[m]] >> page; headed = 1 }
            quoted++
            definition(order[i])
        }
    }
}

function statements(m, i) {
    printf "\n## The statements\n" >> page
    for (m = 1; m <= module_count; m++) {
        if (modules[m] !~ /^demands\./) continue
        printf "\n### %s\n\n%s\n\n", modules[m], title_of[modules[m]] >> page
        for (i = 1; i <= def_count; i++) {
            if (index(order[i], modules[m] ".") != 1 || !is_statement(order[i])) continue
            printf "- %s: %s\n", linked(order[i]), said[order[i]] >> page
            if (guards[order[i]] != "") { printf "  - wrong statements that are refused:\n" >> page; wrong(order[i], "    ") }
        }
    }
}

# The definition that a name in `of: ` stands for: by its whole key, in the layout, or in the first crate that has it.
function key_of(name, i, key) {
    for (i = 1; i <= def_count; i++) {
        if (order[i] == name || order[i] == "layout." name) return order[i]
        if (key == "" && substr(order[i], length(order[i]) - length(name)) == "." name) key = order[i]
    }
    return key
}

function other_names(g, name) {
    printf "\n## Other names that edits guard\n\nDefinitions that quote no sentence, words of other crates, and functions below the face.\n\n" >> page
    for (g = 1; g <= guard_count; g++) {
        name = guarded[g]
        if (name in told) continue
        if (key_of(name) != "") printf "- %s: %s\n", linked(key_of(name)), said[key_of(name)] >> page
        else printf "- `%s`: %s\n", name, about[name] >> page
        wrong(name, "  ")
    }
}

END {
    close_def()
    for (i = 1; i <= def_count; i++) uses[order[i]] = uses_of(body[order[i]], file_of[order[i]])
    for (i = 1; i <= def_count; i++) if (order[i] ~ /^layout\.Promises\./) { promised[++promise_count] = order[i]; reach(order[i], order[i]) }
    for (i = 1; i <= fn_count; i++) {
        n = split(uses_of(contract[functions[i]], source[functions[i]]), item, "\n")
        for (j = 1; j <= n; j++) speaks(item[j], functions[i])
    }
    for (i = 1; i <= def_count; i++) if (is_statement(order[i])) speaks(order[i], order[i])

    page = promises
    promises_page()
    page = sentences
    definitions()
    statements()
    other_names()
    printf "\n## Without a wrong program of their own\n\n%d definitions quote a sentence. Of these no edit names: %s.\n", quoted, without >> page
    exit bad
}
