# A table of what `bench_machine protocol` printed (the file that the variable `ours` names) and what protobuf_times printed.

function row(name, read, write) {
    if (FILENAME != ours) {
        their_read[name] = read
        their_write[name] = write
        return
    }
    names[++rows] = name
    our_read[name] = read
    our_write[name] = write
}

$1 == "journal" {
    row("(framing)", $7, "")
    row("(whole journal)", $9, $11)
    whole[FILENAME == ours] = $3 " frames, " $5 " bytes, MB/s read " $13 ", written " $14 ", checksum " $16
    next
}

{ row($1, $3, $5) }

END {
    format = "%-28s %12s %12s %12s %12s\n"
    printf format, "nanoseconds a frame", "read here", "by Google", "written here", "by Google"
    for (i = 1; i <= rows; i++) {
        name = names[i]
        printf format, name, our_read[name], their_read[name], our_write[name], their_write[name]
    }
    print "here: " whole[1]
    print "by Google: " whole[0]
}
