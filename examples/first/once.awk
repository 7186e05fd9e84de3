# once.awk: names each tag that stands once in its statement, and so says nothing: awk -f once.awk FILE.tdl ..
# It takes a full stop at the end of a line for the end of a statement, and knows no comments but those that begin with `;`.
{ sub(/;.*/, ""); statement = statement " " $0 }
/\.[ \t\r]*$/ {
    split("", times)
    rest = statement
    for (tags = 0; match(rest, /#[^] \t,.&<>[!]+/); rest = substr(rest, RSTART + RLENGTH)) {
        tag[++tags] = substr(rest, RSTART, RLENGTH)
        times[tag[tags]]++
    }
    split(statement, words)
    for (i = 1; i <= tags; i++) if (times[tag[i]] == 1) print FILENAME ":" FNR ": " words[1] " " tag[i]
    statement = ""
}
