# The help of one command: its synopsis, its options, and the beginning of its section of the guide with an example.
#
#     awk -v command=NAME -v synopsis=yes|no -f help.awk COMMANDS GUIDE
#
# COMMANDS is share/commands, GUIDE docs/guide.md. With synopsis=yes the first line alone. Status 1 if there is no such
# command.
BEGIN { FS = "\t" }

FNR == 1 { file += 1 }

file == 1 && $1 == "option" && index(" " $4 " ", " " command " ") {
    options = options sprintf("  --%s\n      %s%s\n", $2 ($3 == "-" ? "" : " " $3), $5, $6 == "-" ? "" : " (" $6 ")")
}

# A link is its text.
function plain(text,    link, words) {
    while (match(text, /\[[^]]*\]\([^)]*\)/)) {
        link = substr(text, RSTART, RLENGTH)
        words = substr(link, 2, index(link, "]") - 2)
        text = substr(text, 1, RSTART - 1) words substr(text, RSTART + RLENGTH)
    }
    return text
}

file == 2 && /^## / {
    inside = index($0, "## `rev " command " ") == 1 || $0 == "## `rev " command "`"
    if (!inside) next
    found = 1
    gsub(/^## `|`$/, "")
    print
    if (synopsis == "yes") exit
    next
}
!inside || done { next }
/^```/ && in_example { print ""; done = 1; next }
/^```/ { in_example = 1; if (!told) tell(); print "Example:"; print ""; next }
in_example { print "  " $0; next }
told { next }
/^$/ && paragraph { tell(); next }
/^$/ { print; next }
{ print plain($0); paragraph = 1 }

function tell() {
    if (options != "") printf "\nOptions:\n%s", options
    print ""
    told = 1
}

END { exit !found }
