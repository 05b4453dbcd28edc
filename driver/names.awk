# driver/names.awk: which files of the library a preprocessed program needs.
#
#     awk -f names.awk -v library=DIR/ PROGRAM LIBRARY
#
# Both texts are C behind `cc -E`, with line markers; LIBRARY has all C files of DIR. A file is needed where the
# program, or a needed file, names what the file defines, and the program declares it and does not define it. The needed
# files are put, one a line, in the order of LIBRARY.

function is_word(token) { return token ~ /^[A-Za-z_$]/ }

function is_keyword(token) {
    return token ~ /^(void|char|short|int|long|float|double|signed|unsigned|_Bool|struct|union|enum|const|volatile)$/ ||
        token ~ /^(restrict|inline|static|extern|typedef|register|auto|sizeof|__attribute__)$/
}

# A declaration or definition of a file begins.
function begin() { called = ""; initial = 0; storage = ""; last = ""; before = "" }

# The texts of one unit are read apart: the program is a unit, and so is each file of the library.
function declares(name) { if (unit == "program") declared[name] = 1 }
function defines(name) {
    if (unit == "program") own[name] = 1
    else if (unit != "" && !(name in definer)) definer[name] = unit
}
function uses(name) {
    if (unit == "program") wanted[name] = 1
    else if (unit != "" && !((unit, name) in used)) { used[unit, name] = 1; uses_of[unit] = uses_of[unit] " " name }
}

# A variable of the file stands before this token.
function variable() {
    if (called != "" || !is_word(last) || is_keyword(last) || before ~ /^(struct|union|enum)$/) return
    if (storage == "extern") declares(last)
    else if (storage != "typedef") defines(last)
}

function inside(token) {
    if (token == "{") depth++
    else if (token == "}") { if (--depth == 0 && kind == "function") begin() }
    else if (kind != "type" && is_word(token)) uses(token)
}

function open_brace() {
    depth = 1
    if (initial) kind = "value"
    else if (called != "" && last == ")") {
        kind = "function"
        defines(called)
    } else kind = "type"
}

function outside(token) {
    if (token == "{") open_brace()
    else if (token == "(" || token == "[") {
        if (nest == 0 && token == "[" && !initial) variable()
        if (nest == 0 && token == "(" && !initial && called == "" && is_word(last) && !is_keyword(last)) called = last
        nest++
    } else if (token == ")" || token == "]") { if (nest > 0) nest-- }
    else if (nest > 0) { if (initial && is_word(token)) uses(token) }
    else if (token == ";") { if (!initial) variable(); if (called != "") declares(called); begin(); return }
    else if (token == ",") { if (!initial) variable(); if (called != "") declares(called); called = ""; initial = 0 }
    else if (token == "=") { variable(); initial = 1 }
    else if (token == "typedef" || token == "extern") storage = token
    else if (initial && is_word(token)) uses(token)
    before = last
    last = token
}

# A line marker says of which file the next lines are.
function mark(line) {
    if (NR == FNR || !match(line, /".*"/)) return
    file = substr(line, RSTART + 1, RLENGTH - 2)
    unit = ""
    if (index(file, library) == 1 && file ~ /\.c$/) {
        unit = file
        if (!(unit in known)) { known[unit] = 1; files[++count] = unit }
    }
}

function scan(line, number, tokens, k) {
    gsub(/"([^"\\]|\\.)*"|'([^'\\]|\\.)*'/, " ", line)
    gsub(/(\.|->)[ \t]*[A-Za-z_$][A-Za-z0-9_$]*/, " ", line)
    gsub(/[^][A-Za-z0-9_$(){};,=]+/, " ", line)
    gsub(/[][(){};,=]/, " & ", line)
    number = split(line, tokens, " ")
    for (k = 1; k <= number; k++) {
        if (depth > 0) inside(tokens[k])
        else outside(tokens[k])
    }
}

function need(name, names, k, number) {
    if (name in own || !(name in definer) || definer[name] in needed) return
    needed[definer[name]] = 1
    number = split(uses_of[definer[name]], names, " ")
    for (k = 1; k <= number; k++) need(names[k])
}

FNR == 1 { unit = NR == 1 ? "program" : ""; depth = nest = 0; begin() }
/^[ \t]*#/ { mark($0); next }
{ scan($0) }

END {
    for (name in wanted) if (name in declared) need(name)
    for (k = 1; k <= count; k++) if (files[k] in needed) print files[k]
}
