# driver/formats.awk: which conversions the formats of a program name, as options of the preprocessor for lib/print.c
# and lib/scan.c. A format that is no string literal may name any.
#
#     awk -f formats.awk -v headers=DIR/ PROGRAM

BEGIN {
    last = "(hh|h|ll|l|j|z|t|L)?[][A-Za-z%]"
    pattern["PRINT"] = "%[-+ #0']*([*]|[0-9]+)?([.]([*]|[0-9]*))?" last
    pattern["SCAN"] = "%[*]?[0-9]*" last
}

# The conversions of string literals beside one another.
function conversions(kind, text, one, letter) {
    gsub(/\\./, " ", text)
    gsub(/"[ \t]*"/, "", text)
    while (match(text, pattern[kind])) {
        one = substr(text, RSTART, RLENGTH)
        text = substr(text, RSTART + RLENGTH)
        letter = substr(one, length(one))
        if (letter == "%") continue
        named[kind "_" (letter == "i" && kind == "PRINT" ? "d" : letter == "[" ? "set" : letter)]
        if (kind == "PRINT" && one ~ /[-+ #*.0-9]/) named[kind "_wide"]
    }
}

/^[ \t]*#[ \t]*[0-9]+[ \t]+"/ {
    match($0, /".*"/)
    own = index(substr($0, RSTART + 1), headers) != 1
    next
}
own && /__cheric_(print|scan)_[0-9]/ {
    while (match($0, /__cheric_(print|scan)_[0-9]+[ \t]*\(/)) {
        kind = substr($0, RSTART, RLENGTH) ~ /print/ ? "PRINT" : "SCAN"
        $0 = substr($0, RSTART + RLENGTH)
        if (match($0, /^[ \t]*("([^"\\]|\\.)*"[ \t]*)+[,)]/)) conversions(kind, substr($0, 1, RLENGTH))
        else named[kind "_ALL"]
    }
}
END { for (name in named) print "-D__CHERIC_" name }
