# driver/main.awk: gives a main with parameters none, and the words of a program that has no command line instead: its
# name alone. `int main(int argc, char **argv) {` becomes `int main(void ..) {int argc = 1; char **argv = ..;`, and what
# stands behind it keeps its place, by a line marker and blanks.

# The text with another byte for each of its literals.
function masked(text, done, part) {
    done = ""
    while (match(text, /"([^"\\]|\\.)*"|'([^'\\]|\\.)*'/)) {
        part = substr(text, RSTART, RLENGTH)
        gsub(/./, "x", part)
        done = done substr(text, 1, RSTART - 1) part
        text = substr(text, RSTART + RLENGTH)
    }
    return done text
}

function blanks(count) { return count > 0 ? sprintf("%" count "s", "") : "" }

# A declaration of a parameter of the type `char **`, with what it begins as.
function list(text, value, name, type) {
    while (match(text, /[A-Za-z_$][A-Za-z0-9_$]*[ \t]*\[[^]]*\]/)) {
        name = substr(text, RSTART, RLENGTH)
        sub(/[ \t]*\[.*/, "", name)
        text = substr(text, 1, RSTART - 1) "*" name substr(text, RSTART + RLENGTH)
    }
    match(text, /[A-Za-z_$][A-Za-z0-9_$]*[ \t]*$/)
    type = substr(text, 1, RSTART - 1)
    return type !~ /\*/ ? "" : text " = (" type ")" value ";"
}

function declarations(text, parts, count) {
    gsub(/\n/, " ", text)
    count = split(text, parts, ",")
    return parts[1] " = 1;" list(parts[2], "__cheric_argv") (count > 2 ? list(parts[3], "(__cheric_argv + 1)") : "")
}

# Takes the text behind `main(`, then that behind the parameters, each as far as it stands on this line.
function take(text, at) {
    if (state == "parameters") {
        at = index(text, ")")
        if (at == 0) { given = given text "\n"; return }
        given = given substr(text, 1, at - 1)
        printf "void%s)", blanks(length(given) - 4)
        column += at
        text = substr(text, at + 1)
        state = "body"
    }
    if (text ~ /^[ \t]*$/) { print text; return }
    at = match(text, /[^ \t]/)
    state = ""
    if (substr(text, at, 1) != "{") {
        print text
        printf "# %d %s\n", number + 1, file
        return
    }
    print substr(text, 1, at) declarations(given)
    printf "# %d %s\n%s%s\n", number, file, blanks(column + at), substr(text, at + 1)
}

BEGIN {
    name = "[A-Za-z_$][A-Za-z0-9_$]*"
    head = "(^|[^A-Za-z0-9_$])main[ \t]*[(][ \t]*(const[ \t]+|register[ \t]+)?int[ \t]+" name "[ \t]*,"
}

/^[ \t]*#[ \t]*[0-9]+/ {
    if (state != "") next
    number = $0
    gsub(/^[ \t]*#[ \t]*|[ \t].*$/, "", number)
    number--
    if (match($0, /".*"/)) file = substr($0, RSTART, RLENGTH)
    print
    next
}
{ number++ }
state != "" { column = 0; take($0); next }
/main[ \t]*\(/ && masked($0) ~ head {
    match(masked($0), head)
    match(substr($0, 1, RSTART + RLENGTH - 1), /main[ \t]*\([^(]*$/)
    RLENGTH = index(substr($0, RSTART), "(")
    column = RSTART + RLENGTH - 1
    printf "%s", substr($0, 1, column)
    given = ""
    state = "parameters"
    take(substr($0, column + 1))
    next
}
{ print }
