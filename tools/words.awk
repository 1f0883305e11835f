# Prints the fault of a command line's arguments, by tools/commands.txt ($TABLE), or nothing where they have none. A
# file that was named ($INPUT) is no longer among the arguments. It has to be run with LC_ALL=C.

BEGIN {
    read_table()
    fault = fault_of(ARGC - 1)
    if (fault != "") print fault
    exit
}

# commands[] in order; of each command options[]; of each of these values[] and defaults[]
function read_table(    line, cells, names, count, i) {
    while ((getline line < ENVIRON["TABLE"]) > 0) {
        split(line, cells, " [|] ")
        if (cells[1] == "command") all = all (all == "" ? "" : " ") cells[2]
        if (cells[1] == "input") has_input[cells[2]] = 1
        if (cells[1] != "option") continue
        count = split(cells[2], names, " ")
        for (i = 1; i <= count; i++) {
            options[names[i]] = options[names[i]] " " cells[3]
            values[names[i], cells[3]] = cells[4]
            defaults[names[i], cells[3]] = cells[5]
        }
    }
}

function least(a, b) { return a < b ? a : b }

# the number of letters by which two words differ
function distance(one, other,    m, n, i, j, row, last, cost) {
    m = length(one); n = length(other)
    for (j = 0; j <= n; j++) last[j] = j
    for (i = 1; i <= m; i++) {
        row[0] = i
        for (j = 1; j <= n; j++) {
            cost = substr(one, i, 1) != substr(other, j, 1)
            row[j] = least(least(row[j - 1], last[j]) + 1, last[j - 1] + cost)
        }
        for (j = 0; j <= n; j++) last[j] = row[j]
    }
    return last[n]
}

# the nearest of some words, if any is near, or else all of them, behind this text
function nearest(word, names, before,    list, count, i, best, found, d) {
    count = split(names, list, " ")
    best = length(word)
    for (i = 1; i <= count; i++) {
        d = index(list[i], word) == 1 ? 1 : distance(word, list[i])
        if (d < best && d <= (length(list[i]) + 1) / 2) { best = d; found = list[i] }
    }
    if (found != "") return "the nearest is " found
    gsub(/ +/, ", ", names)
    sub(/^, /, "", names)
    return before " " names
}

function fault_of(count,    command, i, word, name, value, given, fault) {
    if (count < 1) return "a command is missing, one of " joined(all)
    command = ARGV[1]
    if (!is_one_of(command, all)) return "there is no command " shown(command) "; " nearest(command, all, "commands are")
    for (i = 2; i <= count; i++) {
        word = ARGV[i]
        if (word == "--") return i == count ? missing(command, given) : "nothing may follow --"
        if (word !~ /^--./) return stray(command, word)
        name = word
        sub(/=.*/, "", name)
        if (!((command, name) in values)) return unknown(command, name)
        if (name in given) return name " is given twice"
        given[name] = 1
        if (name == word && i == count) return name " lacks its value: " range_of(values[command, name])
        value = name == word ? ARGV[++i] : substr(word, length(name) + 2)
        fault = fault_of_value(name, value, values[command, name])
        if (fault != "") return fault
    }
    return missing(command, given)
}

function joined(names) { gsub(/ /, ", ", names); return names }

# a word as it can stand in a message
function shown(word) { gsub(/[^ -~]/, "?", word); return word == "" ? "of no letters" : substr(word, 1, 80) }

function is_one_of(word, names) { return word != "" && word !~ / / && index(" " names " ", " " word " ") > 0 }

function stray(command, word) {
    if (word ~ /^-./) return command " has no option " shown(word) "; options begin with --"
    if (ENVIRON["INPUT"] != "") return "one file is read, which is " shown(ENVIRON["INPUT"]) ", so " shown(word) " is too much"
    if (!(command in has_input)) return command " reads nothing, so no file can be named: " shown(word)
    return "there is no file " shown(word) ", and it is no option of " command
}

function unknown(command, name,    i, count, names, others) {
    count = split(all, names, " ")
    for (i = 1; i <= count; i++)
        if ((names[i], name) in values) others = others (others == "" ? "" : ", ") names[i]
    if (others != "") return command " has no option " name ", which " others (others ~ /,/ ? " have" : " has")
    if (options[command] == "") return command " has no options"
    return command " has no option " shown(name) "; " nearest(name, options[command], "it has")
}

function range_of(range,    ends) {
    if (range == "NAME") return "a name, of 1 to 64 letters, digits, _, . and -, and no - first"
    if (split(range, ends, "[.][.]") == 2) return "a number from " ends[1] " to " ends[2]
    return "one of " joined(range)
}

# whether a number is at most another; both are digits without a 0 before them
function is_at_most(one, other) {
    return length(one) < length(other) || (length(one) == length(other) && (one "") <= (other ""))
}

function fault_of_value(name, value, range,    ends, is_good) {
    if (range == "NAME")
        is_good = value ~ /^[A-Za-z0-9_.][A-Za-z0-9_.-]*$/ && length(value) <= 64
    else if (split(range, ends, "[.][.]") == 2)
        is_good = value ~ /^(0|[1-9][0-9]*)$/ && is_at_most(ends[1], value) && is_at_most(value, ends[2])
    else if (is_one_of(value, range))
        is_good = 1
    else
        return name " can't be " shown(value) "; " nearest(value, range, "it is one of")
    return is_good ? "" : name " can't be " shown(value) ": it is " range_of(range)
}

# the first option that has to be given and is not
function missing(command, given,    names, count, i) {
    count = split(options[command], names, " ")
    for (i = 1; i <= count; i++)
        if (defaults[command, names[i]] == "-" && !(names[i] in given))
            return command " has to be given " names[i] ", " range_of(values[command, names[i]])
    return ""
}
