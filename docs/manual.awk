# Makes the manual page jisthrom(1) of docs/SCRIPTS.md: the sections that the command line needs. `./jisthrom install` calls it.
# The variable `version` is the page's last line.

# A text as roff: no escapes, no line that begins with a dot or a quote, `code` in bold.
function roff(text,    parts, count, at, made) {
    gsub(/\\/, "\\e", text)
    gsub(/\*\*/, "", text)
    gsub(/-/, "\\-", text)
    count = split(text, parts, "`")
    made = parts[1]
    for (at = 2; at <= count; at++) made = made (at % 2 ? "\\fR" : "\\fB") parts[at]
    sub(/^[.']/, "\\\\\\&&", made)
    return made
}

# The cells of a row of a table.
function cells(line,    at) {
    sub(/^\| */, "", line)
    sub(/ *\|$/, "", line)
    return split(line, cell, / *\| */)
}

# A row: its first cell as a heading, and below it those others that a section shows.
function row(count,    at, text) {
    text = ""
    for (at = 2; at <= count; at++) {
        if (section == "Lines" && at == 2 && count == 3) continue
        if (section == "Faults" && at > 2) continue
        if (section == "Commands" || section == "Statuses") text = text (text == "" ? "" : "; ") name[at] ": " cell[at]
        else text = text (text == "" ? "" : "; ") cell[at]
    }
    print ".TP"
    print ".B " roff(cell[1])
    print roff(text)
}

BEGIN {
    count = split("Commands,Text,Lines,Limits,Faults,The report,Pictures,Statuses", wanted, ",")
    for (at = 1; at <= count; at++) shown[wanted[at]] = 1
    print ".TH JISTHROM 1"
    print ".SH NAME"
    print "jisthrom, jisthrom\\-picture \\- run small scripts of coroutines, and draw what they did"
    print ".SH SYNOPSIS"
    print ".nf"
    print "jisthrom run [\\-\\-workers N] < SCRIPT"
    print "jisthrom check < SCRIPT"
    print "jisthrom sum \\-\\-size N [\\-\\-workers N]"
    print "jisthrom\\-picture [\\-\\-format svg|mermaid|trace] [\\-\\-coroutines A\\-B] [\\-\\-only channels] [\\-\\-lines A\\-B] < REPORT"
    print ".fi"
}

/^## / { section = substr($0, 4); if (section in shown) print ".SH " toupper(roff(section)); next }
!(section in shown) { next }
/^### / { print ".SS " roff(substr($0, 5)); next }
/^\|[-| ]*\|$/ { next }
/^\| / {
    count = cells($0)
    # The first row of a table has the names of its columns.
    if (before !~ /^\| /) for (at = 1; at <= count; at++) name[at] = cell[at]
    else row(count)
    before = $0
    next
}
{ before = $0 }
/^ *$/ { if (verbatim) print ".fi"; verbatim = 0; paragraph = 1; next }
/^    / {
    if (!verbatim) print ".PP\n.nf"
    verbatim = 1
    print roff($0)
    next
}
/^- / { print ".IP \\(bu 2"; print roff(substr($0, 3)); paragraph = 0; next }
{
    if (paragraph) print ".PP"
    paragraph = 0
    sub(/^ +/, "")
    print roff($0)
}

END {
    print ".SH VERSION"
    print roff(version)
}
