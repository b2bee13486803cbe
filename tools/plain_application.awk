# Reads an application on standard input. Ends with 0 if it is plain and has no section or key that the program ignores, and with 1 if it
# must be read as TOML. An application is plain whose headers and keys are bare words, a line each, and whose values are numbers, booleans,
# texts without a backslash, and arrays of such texts. Of one of more than a megabyte the rest isn't looked at.
BEGIN {
    count = split("limits queue binary counting mutex group variable handler task daemon interrupt campaign", sections)
    for (at = 1; at <= count; at++) is_single[sections[at]] = sections[at] ~ /^(limits|daemon|campaign)$/
    for (name in is_single) headers[is_single[name] ? "[" name "]" : "[[" name "]]"] = name
    keys = ".start .tickless limits.ticks limits.steps queue.name queue.length binary.name counting.name counting.max counting.initial"
    keys = keys " mutex.name group.name variable.name variable.initial handler.name handler.ops handler.armed handler.apart task.name"
    keys = keys " task.priority task.endless task.script daemon.name daemon.priority daemon.length interrupt.tick interrupt.handler"
    keys = keys " campaign.points"
    count = split(keys, names, " ")
    for (at = 1; at <= count; at++) is_known[names[at]] = 1
    section = ""
}

# The elements of an array, as far as they are in this text.
function look_at_elements(text) {
    gsub(/"[^"\\]*"/, "", text)
    if (text ~ /^[ \t,]*\][ \t]*(#.*)?$/) is_in_array = 0
    else if (text !~ /^[ \t,]*(#.*)?$/) exit 1
}

(bytes += length($0) + 1) > 1048576 { is_in_array = 0; exit 0 }
{ sub(/\r$/, "") }
/"""|'''/ { exit 1 }
is_in_array { look_at_elements($0); next }
/^[ \t]*(#.*)?$/ { next }
/^[ \t]*\[/ {
    sub(/^[ \t]*/, "")
    sub(/[ \t]*(#.*)?$/, "")
    if (!($0 in headers)) exit 1
    section = headers[$0]
    next
}
/^[ \t]*[a-z]+[ \t]*=/ {
    value = substr($0, index($0, "=") + 1)
    sub(/^[ \t]*/, "")
    sub(/[ \t]*=.*$/, "")
    if (!((section "." $0) in is_known)) exit 1
    if (value ~ /^[ \t]*("[^"\\]*"|'[^']*'|[A-Za-z0-9+._-]+)[ \t]*(#.*)?$/) next
    if (value !~ /^[ \t]*\[/) exit 1
    is_in_array = 1
    sub(/^[ \t]*\[/, "", value)
    look_at_elements(value)
    next
}
{ exit 1 }
END { if (is_in_array) exit 1 }
