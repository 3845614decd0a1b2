# A table of what `bench schedule` printed (the file that the variable `ours` names) and what schedule_times printed.

function put(name, time) {
    if (FILENAME != ours) {
        their_time[name] = time
        return
    }
    names[++rows] = name
    our_time[name] = time
}

$1 == "memory" { put($2 ", " $3 " of them, in memory", $5) }

# Ours has a log in memory always.
$1 == "log" || ($1 == "memory" && FILENAME == ours) { put($2 ", " $3 " of them, with a log there", $5) }

$1 == "file" { put($2 ", " $3 " of them, on a file", $5) }

$1 == "runs" { put("effect, one of " $2 ", " $3, $4) }

# Ours has a log in memory always.
$1 == "runs" && $3 == "memory" && FILENAME == ours { put("effect, one of " $2 ", log", $4) }

$1 == "suspended" { for (i = 3; i < NF; i += 2) put($i ", 10 of " $2, $(i + 1)) }

$1 == "journal" { for (i = 3; i < NF; i += 2) put($i ", journal of " $2, $(i + 1)) }

$1 == "state" { for (i = 3; i < NF; i += 2) put($i ", " $2 " keys", $(i + 1)) }

END {
    format = "%-36s %12s %14s %8s\n"
    printf format, "microseconds an event", "here", "stock SQLite", "times"
    for (i = 1; i <= rows; i++) {
        name = names[i]
        printf format, name, our_time[name], their_time[name], (their_time[name] > 0 ? sprintf("%.1f", our_time[name] / their_time[name]) : "")
    }
}
