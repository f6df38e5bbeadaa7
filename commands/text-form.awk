# Succeeds if the first bytes of a trace, as `od -An -v -tu1` prints them, look like the text form.
{
    for (i = 1; i <= NF; i++) {
        if ($i != 9 && $i != 10 && $i != 13 && ($i < 32 || $i > 126)) { other = 1; exit }
        text = text sprintf("%c", $i + 0)
    }
}
END {
    count = split(text, lines, "\n")
    for (i = 1; i <= count && !found; i++) {
        sub(/^[ \t\r]+/, "", lines[i])
        if (lines[i] ~ /^#/) seen = 1
        else if (lines[i] != "") found = lines[i] ~ /^(CF|C2|MM|SW|WR|RD|ST|AR)[ \t]+[0-9]/ || lines[i] ~ /^RAW[ \t]/ ? 1 : 2
    }
    exit other || !(found == 1 || (seen && !found))
}
