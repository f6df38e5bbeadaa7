# A trace as text: reads the bytes that `od -An -v -tu1 -w8192` prints, writes the lines that trace.awk takes.
# docs/RULES.md 8.2 has the records. Numbers are put together from their bytes, since not every awk prints large ones in hex.

# The byte at a place of the record under way.
function at(place) { return bytes[head + place] }

function number(place, size,    value) {
    place += head
    value = bytes[place] + 256 * bytes[place + 1]
    return size == 2 ? value : value + 65536 * (bytes[place + 2] + 256 * bytes[place + 3])
}

# A number's value, in decimal and in hex without leading zeros.
function decimal(value) { return sprintf("%.0f", value) }

function hex(place, size,    text) {
    for (text = ""; size > 0; size--) text = text two[at(place + size - 1)]
    sub(/^0+/, "", text)
    return "0x" (text == "" ? "0" : text)
}
function offset(place,    text) {
    text = hex(place, 2)
    return length(text) == 3 ? "0x0" substr(text, 3) : text
}

function several(count, noun) { return count " " noun (count == 1 ? "" : "s") }

# One line: the record, and after # its position in the trace and what it says.
function line(text, says) {
    printf "%-38s # %.0f: %s\n", text, before + head - 1, says
}

function bit(value, place) { return int(value / power[place]) % 2 }

# ---- What a record says

function control(value,    text, known) {
    if (bit(value, 2)) return "Reset"
    text = ""
    known = 0
    if (bit(value, 3)) { text = text " SGMode"; known += 8 }
    if (bit(value, 4)) { text = text " KeyHoleRead"; known += 16 }
    if (bit(value, 5)) { text = text " KeyHoleWrite"; known += 32 }
    if (bit(value, 12)) { text = text " IOC_IrqEn"; known += 4096 }
    if (bit(value, 14)) { text = text " Err_IrqEn"; known += 16384 }
    if (text == "") text = " simple mode, no interrupts"
    return substr(text, 2) (value > known ? "; other bits are ignored" : "")
}

function status(value,    text) {
    text = ""
    if (bit(value, 12)) text = text " IOC_Irq"
    if (bit(value, 14)) text = text " Err_Irq"
    return text == "" ? "clears nothing" : "clears" text
}

function register(which) { return (which in names) ? names[which] : "there is no such register" }

function written(which, value) {
    if (which == 0) return "CDMACR: " control(value)
    if (which == 4) return "CDMASR: " status(value)
    return register(which) ((which in names) ? " = " decimal(value) : "")
}

function clock(    bits, text) {
    bits = at(6)
    if (bits > 7) return "a bit above 2 is set"
    if (bits % 2 == 0) return "in reset"
    if (!bit(bits, 1)) return "not valid"
    text = bit(bits, 2) ? "accepted" : "waits"
    if (at(8) > 7 || at(9) > 3) return text ", a field is out of range"
    return text ", " kinds[at(9)] ", " several(at(7) + 1, "beat") " of " several(power[at(8)], "byte")
}

# ---- Records

# The bytes of an MM record, equal ones in a row as ff*6.
function data(count,    text, place, stop, times, value) {
    text = ""
    place = head + 12
    stop = place + count
    while (place < stop) {
        value = bytes[place]
        for (times = 1; place + times < stop && bytes[place + times] == value; times++);
        if (times < 3) {
            text = text " " two[value]
            place++
        } else {
            text = text " " two[value] "*" times
            place += times
        }
    }
    return text
}

function descriptor(    text) {
    text = " next=" hex(12, 4) " source=" hex(20, 4) " destination=" hex(28, 4) " control=" hex(36, 4)
    return text (number(40, 4) ? " status=" hex(40, 4) : "")
}

function memory(start,    count, address) {
    count = number(10, 2)
    address = number(6, 4)
    start = start " " hex(6, 4)
    if (count == 32 && address % 64 == 0 && number(16, 4) + number(24, 4) + number(32, 4) == 0)
        line(start descriptor(), "descriptor at " decimal(address) ", " several(number(36, 4) % 8388608, "byte"))
    else
        line(start data(count), several(count, "byte") " from " decimal(address))
}

function bus(start,    text, field) {
    text = start " bits=" at(6)
    for (field = 1; field <= 7; field++)
        if (at(6 + field)) text = text " " fields[field] "=" at(6 + field)
    if (number(14, 4)) text = text " id=" hex(14, 4)
    line(text " address=" hex(18, 4), clock())
}

# The engine number of a WR, RD or ST, in a trace of two engines.
function engine() { return two_engines ? " engine=" at(6) : "" }
function no_engine() { return two_engines && at(6) != 1 && at(6) != 2 ? "there is no engine " at(6) "; " : "" }

# In a trace of two engines the body of a WR, RD or ST is one byte further on.
function record(mark,    start, body) {
    start = mark " " decimal(number(2, 4))
    body = 6 + two_engines
    if (mark == "CF") line(start " " number(6, 2) " " number(8, 2), "width " number(6, 2) " bytes, " number(8, 2) " beats")
    else if (mark == "C2") line(start " " number(6, 2) " " number(8, 2), "two engines, width " number(6, 2) " bytes, " number(8, 2) " beats")
    else if (mark == "MM") memory(start)
    else if (mark == "SW") line(start " " hex(6, 4) " " hex(10, 4), several(decimal(number(10, 4)), "byte") " from " decimal(number(6, 4)) ", faulty")
    else if (mark == "WR") line(start engine() " " offset(body) " " hex(body + 2, 4), no_engine() written(number(body, 2), number(body + 2, 4)))
    else if (mark == "RD") line(start engine() " " offset(body), no_engine() register(number(body, 2)))
    else if (mark == "ST") line(start engine() " " number(body, 2), no_engine() "up to " several(number(body, 2), "step"))
    else bus(start)
}

# ---- Bytes that are no record: all from the first of them on, since nothing says where the next record would start

function raw(ended,    text, count) {
    while (head + 15 <= tail || (ended && head <= tail)) {
        text = "RAW"
        for (count = 0; count < 16 && head + count <= tail; count++) text = text " " two[bytes[head + count]]
        if (why == "") print text
        else line(text, why)
        why = ""
        head += count
    }
}

# Takes each record that is there as a whole; `ended` if no byte follows.
function take(ended,    mark, size) {
    while (!lost && head <= tail) {
        size = 0
        if (head < tail) {
            mark = letter[bytes[head]] letter[bytes[head + 1]]
            if (!(mark in sizes)) { lost = 1; why = "not a record from here on: unknown mark"; return }
            size = sizes[mark]
            if (mark == "MM" && head + 11 <= tail) {
                size += number(10, 2)
                if (size == 12 || size > 1036) { lost = 1; why = "not a record from here on: MM of " size - 12 " bytes"; return }
            }
        }
        if (size == 0 || head + size - 1 > tail) {
            if (ended) { lost = 1; why = "not a record: cut short" }
            return
        }
        record(mark)
        head += size
    }
}

BEGIN {
    for (i = 0; i < 256; i++) two[i] = substr("0123456789abcdef", int(i / 16) + 1, 1) substr("0123456789abcdef", i % 16 + 1, 1)
    for (i = 0; i < 26; i++) letter[65 + i] = substr("ABCDEFGHIJKLMNOPQRSTUVWXYZ", i + 1, 1)
    for (i = 0; i < 32; i++) power[i] = i == 0 ? 1 : power[i - 1] * 2
    letter[50] = "2"
    sizes["CF"] = 10; sizes["C2"] = 10; sizes["MM"] = 12; sizes["SW"] = 14; sizes["WR"] = 12; sizes["RD"] = 8; sizes["ST"] = 8; sizes["AR"] = 22
    names[0] = "CDMACR"; names[4] = "CDMASR"; names[8] = "CURDESC"; names[16] = "TAILDESC"
    names[24] = "SA"; names[32] = "DA"; names[40] = "BTT"
    names[12] = "CURDESC upper half"; names[20] = "TAILDESC upper half"; names[28] = "SA upper half"; names[36] = "DA upper half"
    split("length size burst cache prot qos region", fields, " ")
    kinds[0] = "fixed"; kinds[1] = "incrementing"; kinds[2] = "wrapping"; kinds[3] = "burst 3"
    head = 1
    tail = 0
    before = 0
    lost = 0
    two_engines = 0
    print "# A trace as text: ./belikumba trace makes the trace again. After each # is the record's position."
}

NR == 1 && $1 == 67 && $2 == 50 {
    two_engines = 1
    sizes["WR"]++; sizes["RD"]++; sizes["ST"]++
}
NR == 1 && !two_engines && ($1 != 67 || $2 != 70) {
    print "# No CF at its start: width 4 and 64 beats, or 16 on an older board; see ./belikumba help convert."
}

# The bytes of this line, behind what was left of the last one; `before` bytes of the trace came before the first of them.
{
    rest = ""
    for (i = head; i <= tail; i++) rest = rest bytes[i] " "
    before += head - 1
    tail = split(rest $0, bytes, " ")
    head = 1
    take(0)
    if (lost) raw(0)
}
END {
    take(1)
    raw(1)
}
