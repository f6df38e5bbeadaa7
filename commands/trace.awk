# A trace from its text: writes the bytes of each record as decimal numbers; the caller makes bytes of them.
# `./belikumba help trace` says how a text is written. A wrong line is named by its number with what was expected.

function fail(expected) {
    printf "%s:%d: expected %s\n", name, FNR, expected | "cat 1>&2"
    failed = 1
    exit 2
}

# The value of a number in decimal, or in hex after 0x; at most the one given.
function number(text, most, what,    base, start, value, at, digit) {
    base = text ~ /^0[xX]/ ? 16 : 10
    start = base == 16 ? 3 : 1
    value = length(text) < start ? -1 : 0
    for (at = start; value >= 0 && at <= length(text); at++) {
        digit = (base == 16) ? index("0123456789abcdef", tolower(substr(text, at, 1))) - 1 : index("0123456789", substr(text, at, 1)) - 1
        value = digit < 0 || value > most ? -1 : value * base + digit
    }
    if (value < 0 || value > most) fail("as " what " a number from 0 to " sprintf("%.0f", most) ", in decimal or in hex after 0x, and not '" text "'")
    return value
}

function put(value, size) {
    for (; size > 0; size--) {
        printf " %d", value % 256
        value = int(value / 256)
    }
}
function word(text, what) { put(number(text, 4294967295, what), 4) }
function half(text, what) { put(number(text, 65535, what), 2) }

# The number of bytes in hex from a field on, ff*6 for six of them; then the bytes.
function count_data(from,    at, star, count) {
    count = 0
    for (at = from; at <= NF; at++) {
        star = index($at, "*")
        times[at] = star ? number(substr($at, star + 1), 65535, "the times of a byte") : 1
        if (star) $at = substr($at, 1, star - 1)
        if (!($at in byte)) $at = tolower($at)
        if (!($at in byte)) fail("a byte in hex, as 0f or 0f*6, and not '" $at "'")
        count += times[at]
    }
    return count
}
function put_data(from,    at, text) {
    for (at = from; at <= NF; at++) {
        text = " " byte[$at]
        for (; times[at] > 0; times[at]--) printf "%s", text
    }
}

# Takes the name=value parts from a field on.
function named(from, known,    at, place, name) {
    split("", value)
    for (at = from; at <= NF; at++) {
        place = index($at, "=")
        name = substr($at, 1, place - 1)
        if (place < 2 || index(" " known " ", " " name " ") == 0) fail("NAME=NUMBER, with a name of: " known "; and not '" $at "'")
        if (name in value) fail(name " once, and not twice")
        value[name] = substr($at, place + 1)
    }
}
function given(name) { return name in value ? value[name] : "0" }

function memory(    count) {
    word($3, "address")
    if (NF >= 4 && index($4, "=") > 0) {
        named(4, "next source destination control status")
        put(32, 2)
        word(given("next"), "next"); put(0, 4)
        word(given("source"), "source"); put(0, 4)
        word(given("destination"), "destination"); put(0, 4)
        word(given("control"), "control"); word(given("status"), "status")
        return
    }
    count = count_data(4)
    if (count > 65535) fail("at most 65535 bytes, and not " count)
    put(count, 2)
    put_data(4)
}

function bus(    count, at, names) {
    named(3, "bits length size burst cache prot qos region id address")
    count = split("bits length size burst cache prot qos region", names, " ")
    for (at = 1; at <= count; at++) put(number(given(names[at]), 255, names[at]), 1)
    word(given("id"), "id"); word(given("address"), "address")
}

# WR, RD and ST carry an engine number, engine=2 behind the sequence number, in a trace that starts with C2, and in no other.
# What starts with RAW may be either.
function carries(    engine) {
    if (!($1 in chosen)) return 0
    engine = $3 ~ /^engine=/
    if (starts != "RAW" && engine != (starts == "C2"))
        fail((engine ? shape[$1] : chosen[$1]) ", since the text " (engine ? "does not start" : "starts") " with C2")
    return engine
}

BEGIN {
    for (i = 0; i < 256; i++) {
        text = substr("0123456789abcdef", int(i / 16) + 1, 1) substr("0123456789abcdef", i % 16 + 1, 1)
        byte[text] = i
        if (i < 16) byte[substr(text, 2)] = i
    }
    shape["CF"] = "CF SEQUENCE WIDTH BEATS"; marks["CF"] = " 67 70"; parts["CF"] = 4
    shape["C2"] = "C2 SEQUENCE WIDTH BEATS"; marks["C2"] = " 67 50"; parts["C2"] = 4
    shape["MM"] = "MM SEQUENCE ADDRESS BYTES.. or MM SEQUENCE ADDRESS NAME=NUMBER.."; marks["MM"] = " 77 77"; parts["MM"] = 0
    shape["SW"] = "SW SEQUENCE START LENGTH"; marks["SW"] = " 83 87"; parts["SW"] = 4
    shape["WR"] = "WR SEQUENCE OFFSET VALUE"; marks["WR"] = " 87 82"; parts["WR"] = 4
    shape["RD"] = "RD SEQUENCE OFFSET"; marks["RD"] = " 82 68"; parts["RD"] = 3
    shape["ST"] = "ST SEQUENCE STEPS"; marks["ST"] = " 83 84"; parts["ST"] = 3
    shape["AR"] = "AR SEQUENCE NAME=NUMBER.."; marks["AR"] = " 65 82"; parts["AR"] = 0
    chosen["WR"] = "WR SEQUENCE engine=NUMBER OFFSET VALUE"
    chosen["RD"] = "RD SEQUENCE engine=NUMBER OFFSET"
    chosen["ST"] = "ST SEQUENCE engine=NUMBER STEPS"
    starts = ""
}

# A text from Windows has a mark in front, and CR before each line feed.
FNR == 1 { sub(/^\357\273\277/, "") }

# The first line that text.awk prints: texts may stand one after the other.
/^# A trace as text:/ { starts = "" }
{
    sub(/\r$/, "")
    sub(/#.*/, "")
}
NF == 0 { next }
starts == "" { starts = $1 }
$1 == "RAW" {
    count_data(2)
    put_data(2)
    print ""
    next
}
!($1 in marks) { fail("CF, C2, MM, SW, WR, RD, ST, AR or RAW at the start of a line, and not '" $1 "'") }
{ engine = carries() }
NF < 2 || (parts[$1] && NF != parts[$1] + engine) || ($1 == "MM" && NF < 3) {
    fail((engine ? chosen[$1] : shape[$1]) ", and not " NF " parts")
}
{
    printf "%s", marks[$1]
    word($2, "sequence number")
    if (engine) put(number(substr($3, 8), 255, "engine"), 1)
}
$1 == "CF" || $1 == "C2" { half($3, "width"); half($4, "beats") }
$1 == "MM" { memory() }
$1 == "SW" { word($3, "start"); word($4, "length") }
$1 == "WR" { half($(3 + engine), "offset"); word($(4 + engine), "value") }
$1 == "RD" { half($(3 + engine), "offset") }
$1 == "ST" { half($(3 + engine), "steps") }
$1 == "AR" { bus() }
{ print "" }
END { if (failed) exit 2 }
