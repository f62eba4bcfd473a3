# Writes a page anew, from the rows of the table of commands, share/commands and the page as it stands.

function fail(text) {
    print "surface: " text > "/dev/stderr"
    failed = 1
}

function has(list, item) {
    return index(" " list " ", " " item " ") > 0
}

# ---- what both tables say

FNR == 1 { file += 1 }
file == 1 {
    least[$1] = $2
    most[$1] = $3
    used[$1] = ""
    for (i = 4; i <= NF; i++) used[$1] = used[$1] " " $i
    rows += 1
    next
}
file == 2 && (/^#/ || /^$/) { next }
file == 2 && split($0, part, "\t") && part[1] == "command" {
    name[++commands] = part[2]
    inputs[part[2]] = part[3]
    says[part[2]] = part[4]
    next
}
file == 2 && part[1] == "option" {
    option[++options] = part[2]
    value[options] = part[3]
    takers[options] = part[4]
    about[options] = part[5]
    usual[options] = part[6]
    lines_of[part[2]] += 1
    next
}
file == 2 { fail("share/commands: " $0); next }
file == 3 && FNR == 1 { compare_tables() }

function compare_tables(    c, o, i, words, count, given) {
    if (rows != commands) fail("the table has " rows " commands, and share/commands " commands)
    for (c = 1; c <= commands; c++) {
        if (!(name[c] in most)) {
            fail("the table has no command " name[c])
            continue
        }
        count = inputs[name[c]] == "-" ? 0 : split(inputs[name[c]], words, " ")
        if (count != most[name[c]]) fail(name[c] " takes " most[name[c]] " inputs, and share/commands has " count)
        given = ""
        for (o = 1; o <= options; o++) {
            if (!has(takers[o], name[c])) continue
            if (!has(used[name[c]], option[o])) fail(name[c] " uses no option --" option[o])
            given = given " " option[o]
        }
        count = split(used[name[c]], words, " ")
        for (i = 1; i <= count; i++)
            if (!has(given, words[i])) fail("share/commands has no option --" words[i] " for " name[c])
    }
}

function is_list(o) { return value[o] ~ /[|]/ }

function values(o,    list) {
    list = value[o]
    gsub(/[|]/, " ", list)
    return list
}

# What a command takes after its name. An option, its value, an input and a value of a list are put between marks, and
# what may be left out between brackets.
function usage(command, before, after, italic, upright,    o, i, text, words, count, shown) {
    for (o = 1; o <= options; o++) {
        if (!has(takers[o], command)) continue
        text = text " [" before "--" option[o] after
        if (value[o] != "-") text = text " " (is_list(o) ? value[o] : italic value[o] upright)
        text = text "]"
    }
    count = inputs[command] == "-" ? 0 : split(inputs[command], words, " ")
    for (i = 1; i <= count; i++) {
        shown = italic words[i] upright
        text = text " " (i <= least[command] ? shown : "[" shown "]")
    }
    return text
}

# ---- the guide

function guide_head(    c, line) {
    for (c = 1; c <= commands; c++) {
        line = "rev " name[c] usage(name[c], "", "", "", "")
        if (length(line) > 50) {
            print line
            line = ""
        }
        printf "%-51s %s\n", line, says[name[c]]
    }
}

page == "docs/guide.md" {
    if (/^```/) fence += 1
    if (fence == 1) {
        if (/^```/) {
            print
            guide_head()
        }
        next
    }
    if (/^## `rev [a-z]/) {
        command = $3
        gsub(/`/, "", command)
        section += 1
        if (name[section] != command)
            fail(page ": section " section " is that of " command ", and share/commands has " name[section] " there")
        $0 = "## `rev " command usage(command, "", "", "", "") "`"
    }
    print
    next
}

# ---- the man page

function man(text) {
    gsub(/-/, "\\-", text)
    return text
}

function man_synopsis(    c) {
    print ".nf"
    for (c = 1; c <= commands; c++)
        print "\\fBrev " name[c] "\\fR" man(usage(name[c], "\\fB", "\\fR", "\\fI", "\\fR"))
    print ".fi"
}

function man_options(    o, i, words, count, of) {
    for (o = 1; o <= options; o++) {
        print ".TP"
        if (value[o] == "-") print ".B \\-\\-" option[o]
        else print (is_list(o) ? ".BR" : ".BI") " \\-\\-" option[o] " \" " value[o] "\""
        count = split(takers[o], words, " ")
        of = ""
        for (i = 1; i <= count; i++)
            of = of (i == 1 ? "" : i == count ? " and " : ", ") "\\fB" words[i] "\\fR"
        print "of " of ": " about[o] (usual[o] == "-" ? "" : "; \\fB" usual[o] "\\fR if not given") "."
    }
}

page == "docs/rev.1" {
    if (/^\.SH/) part_of_man = $2
    if (part_of_man == "DESCRIPTION" && /^\.B [a-z]/) {
        section += 1
        if (name[section] != $2)
            fail(page ": entry " section " is that of " $2 ", and share/commands has " name[section] " there")
    }
    if (/^\.SH/ || (part_of_man != "SYNOPSIS" && part_of_man != "OPTIONS")) print
    if (/^\.SH SYNOPSIS/) man_synopsis()
    if (/^\.SH OPTIONS/) man_options()
    next
}

# ---- the completions: a page has parts that begin with a line `# >>> NAME` and end with `# <<<`

/^ *# <<</ { inside = 0 }
inside { next }
{ print }
/^ *# >>> / {
    inside = 1
    indent = $0
    sub(/#.*/, "", indent)
    if ($3 == "names") all_names()
    else if ($3 == "bash-values") bash_values()
    else if ($3 == "bash-options") bash_options()
    else if ($3 == "zsh-commands") zsh_commands()
    else if ($3 == "zsh-arguments") zsh_arguments()
    else if ($3 == "fish") fish()
    else fail(page ": no part is called " $3)
}

function name_list(    c, text) {
    for (c = 1; c <= commands; c++) text = text (c == 1 ? "" : " ") name[c]
    return text
}

function all_names() { print indent "local commands='" name_list() "'" }

function offer(list) { return "COMPREPLY=($(compgen -W '" list "' -- \"$word\"))" }

function bash_values(    o, i, words, count, who, done) {
    for (o = 1; o <= options; o++) {
        if (value[o] == "-") continue
        who = "*:--" option[o]
        if (lines_of[option[o]] > 1) {
            count = split(takers[o], words, " ")
            who = ""
            for (i = 1; i <= count; i++) who = who (i == 1 ? "" : " | ") words[i] ":--" option[o]
        }
        if (is_list(o)) print indent who ") " offer(values(o)) " && return ;;"
        else if (value[o] == "FILE") print indent who ") compopt -o default && return ;;"
        else print indent who ") return ;;"
        done[option[o]] += 1
        if (lines_of[option[o]] > 1 && done[option[o]] == lines_of[option[o]]) print indent "*:--" option[o] ") return ;;"
    }
}

function options_of(command,    o, text) {
    for (o = 1; o <= options; o++)
        if (has(takers[o], command)) text = text (text == "" ? "" : " ") "--" option[o]
    return text
}

function bash_options(    c) {
    for (c = 1; c <= commands; c++) {
        if (options_of(name[c]) != "") print indent name[c] ":-*) " offer(options_of(name[c])) " ;;"
        if (most[name[c]] == 0) print indent name[c] ":*) ;;"
    }
}

function zsh_commands(    c) {
    for (c = 1; c <= commands; c++) print indent "'" name[c] ":" says[name[c]] "'"
}

function zsh_option(o) {
    if (value[o] == "-") return "'--" option[o] "[" about[o] "]'"
    return "'--" option[o] "=[" about[o] "]:" option[o] ":" (is_list(o) ? "(" values(o) ")" : value[o] == "FILE" ? "_files" : "") "'"
}

function zsh_arguments(    c, o, text) {
    for (c = 1; c <= commands; c++) {
        text = ""
        for (o = 1; o <= options; o++)
            if (has(takers[o], name[c])) text = text " \\\n" indent "    " zsh_option(o)
        if (most[name[c]] > 0) text = text (text == "" ? " " : " \\\n" indent "    ") "'*:input:_files'"
        print indent name[c] ") _arguments" text " ;;"
    }
}

function fish(    c, o, line) {
    print "set -l commands " name_list()
    print "complete -c rev -n \"not __fish_seen_subcommand_from $commands\" -f"
    for (c = 1; c <= commands; c++)
        print "complete -c rev -n \"not __fish_seen_subcommand_from $commands\" -a " name[c] " -d '" says[name[c]] "'"
    for (o = 1; o <= options; o++) {
        line = "complete -c rev -n '__fish_seen_subcommand_from " takers[o] "' -l " option[o]
        if (is_list(o)) line = line " -x -a '" values(o) "'"
        else if (value[o] == "FILE") line = line " -r -F"
        else if (value[o] != "-") line = line " -x"
        print line " -d '" about[o] "'"
    }
    for (c = 1; c <= commands; c++)
        if (most[name[c]] == 0) print "complete -c rev -n '__fish_seen_subcommand_from " name[c] "' -f"
}

END { exit failed }
