# The man page from the help text: awk -f commands/man.awk commands/manual.txt > belikumba.1

function escaped(text) {
    gsub(/\\/, "\\e", text)
    gsub(/-/, "\\-", text)
    if (text ~ /^[.']/) text = "\\&" text
    return text
}
function fill() {
    if (plain) print ".fi"
    plain = 0
}
BEGIN { print ".TH BELIKUMBA 1 \"\" \"Belikumba " version "\" \"Belikumba\"" }
/^== / {
    fill()
    title = substr($0, 4)
    if (title ~ /^[A-Z]/) print ".SH " title
    else {
        if (!commands) print ".SH EACH COMMAND"
        commands = 1
        print ".SS " title
    }
    first = 1
    waiting = 0
    next
}
/^$/ {
    waiting = !first
    next
}
{
    if (waiting) {
        fill()
        print ".PP"
    }
    waiting = 0
    first = 0
}
# Indented lines, and usage lines, stay as they are.
/^  / && !plain {
    print ".nf"
    plain = 1
}
!/^  / { fill() }
{ print escaped($0) }
END { fill() }
