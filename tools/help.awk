# Prints the help of tools/commands: of all commands where `wanted` is empty, else of that one; fails where there is none.
function rest() {
    return substr($0, index($0, ":") + 2)
}

BEGIN {
    if (wanted == "") print "stp: checks a timed plan whose durations the environment may choose within intervals.\n"
}

/^command: / {
    name = rest()
    words = name
    shown = wanted == "" || wanted == name
    found = found || shown
}

/^words: / { words = name " " rest() }
/^about: / && shown { printf "  stp %s\n      %s\n", words, rest() }
/^example: / && shown { printf "      $ %s\n", rest() }
/^text: / && wanted == name { printf "%s      %s\n", told++ ? "" : "\n", rest() }
/^formats: / && found { printf "%s%s\n", formats++ ? "  " : "\nformats\n  ", rest() }
/^status: / && wanted == "" { printf "%s%s\n", statuses++ ? "  " : "\nstatus\n  ", rest() }
/^environment: / && wanted == "" { printf "\nenvironment\n  %s\n", rest() }

END {
    if (!found) print "stp: no command " wanted > "/dev/stderr"
    exit !found
}
