# Whether each C block of a page is a run of whole lines of a program.
#
#     awk -f tests/excerpts.awk PROGRAM PAGE
FNR == NR { program = program "\n" $0; next }
/^```c$/ { inside = 1; block = ""; from = FNR; next }
/^```$/ && inside {
    inside = 0
    count++
    if (index(program "\n", block "\n") == 0) { print "line " from ": an excerpt that is not in the program"; wrong = 1 }
    next
}
inside { block = block "\n" $0 }
END {
    if (count == 0) { print "no excerpts"; wrong = 1 }
    exit wrong
}
