# Prints what docs/FAULTS.md says of a word: the number of a status, the number or name of a fault, or the name of a
# rule. These are rows of its tables; where no row is of the word, a sentence that names it is printed.
# usage: awk -v word=WORD -f explain.awk FAULTS.md

# The words of a cell, without the marks of Markdown: without anchors, and of a link its text.
function plain(text,    link) {
    gsub(/<a [^>]*><\/a>/, "", text)
    while (match(text, /\[[^]]*\]\([^)]*\)/)) {
        link = substr(text, RSTART + 1, RLENGTH - 2)
        sub(/\]\(.*/, "", link)
        text = substr(text, 1, RSTART - 1) link substr(text, RSTART + RLENGTH)
    }
    gsub(/`/, "", text)
    gsub(/^ +| +$/, "", text)
    return text
}

# Whether a row of the tables of statuses, faults or rules is of the word, by its first cell. A row of a rule is of its
# rule alone.
function is_of(cell) {
    if (cell ~ / rule [A-Z]/)
        return cell ~ (" " word "$")
    if (!is_name)
        return cell == word || cell ~ ("^(status|fault) " word "([ ,]|$)")
    return cell ~ /^fault / && cell ~ (" " word "( |$)")
}

# A row as lines: its first cell, and below it each other cell with its column's name.
function print_row(    column) {
    print (cell[1] ~ /^[0-9]/ ? "status " : "") cell[1]
    for (column = 2; column <= columns; column++)
        if (cell[column] != "")
            print "    " head[column] ": " cell[column]
    found = 1
}

BEGIN {
    # Names are those of faults, tables and rules, which begin with a capital letter.
    is_name = word ~ /^[A-Z][A-Za-z]+$/
    if (!is_name && word !~ /^[0-9]+$/)
        exit
    # A status, fault or rule in a sentence: its name in code, or its number after the word.
    in_text = "`" word "`"
    if (!is_name)
        in_text = "(^|[^0-9])(status|statuses|faults?|with) ([0-9]+,? |and )*" word "([^0-9]|$)"
}

/^\|/ {
    columns = split(substr($0, 2), cell, / \| | \|$/) - 1
    for (column = 1; column <= columns; column++)
        cell[column] = plain(cell[column])
    if (!in_table)
        for (column = 1; column <= columns; column++)
            head[column] = tolower(cell[column])
    else if (is_of(cell[1]))
        print_row()
    in_table = 1
    next
}

{ in_table = 0 }

# Paragraphs are kept whole, in case no row is of the word.
/^$/ || /^#/ { paragraph = ""; next }
{
    paragraph = paragraph (paragraph == "" ? "" : " ") $0
    paragraphs[NR] = paragraph
    delete paragraphs[NR - 1]
}

function print_sentences(    line, sentence, count, at) {
    for (line = 1; line <= NR; line++) {
        if (!(line in paragraphs))
            continue
        count = split(paragraphs[line], sentence, /\. /)
        for (at = 1; at <= count; at++)
            if (sentence[at] ~ in_text) {
                print plain(sentence[at]) (sentence[at] ~ /\.$/ ? "" : ".")
                found = 1
            }
    }
}

END {
    if (!found && in_text != "")
        print_sentences()
    if (word == "") {
        print "rc: nothing to explain: it takes the number or the name of a status, a fault or a rule" > "/dev/stderr"
        exit 64
    }
    if (!found) {
        print "rc: nothing to explain: " word " is no status, fault or rule of docs/FAULTS.md" > "/dev/stderr"
        exit 64
    }
}
