# Makes a table of the lines that `pairs_time measure` wrote in one or more processes: for each call, fluid and candidate the least,
# in microseconds, and each candidate's time as so many of its own states.
BEGIN { FS = "\t" }

{
    line = "| " $1 " | " $2 " |"
    if (!(line in fluid)) {
        lines[++count] = line
        fluid[line] = $2
        pairs[line] = $5
    }
    if ($1 == "a state's entropy") state[$2] = line
    if (!((line, $3) in least) || $4 + 0 < least[line, $3]) least[line, $3] = $4 + 0
}

function smaller(a, b) { return a < b ? a : b }

function micro(line, candidate) { return sprintf("%.3f", least[line, candidate] / 1000) }

function states(line, candidate) { return sprintf("%.2f", least[line, candidate] / least[state[fluid[line]], candidate]) }

function print_times(line,    package, better) {
    package = least[line, "package"]
    better = smaller(least[line, "C -O2"], least[line, "C -O3"])
    print line, pairs[line] + 0 ? sprintf("%.2f", pairs[line]) : "—", "|", micro(line, "package"), "|", micro(line, "C -O2"), "|",
        micro(line, "C -O3"), "|", micro(line, "Rust"), "|", sprintf("%.2f | %.2f |", package / better, package / least[line, "Rust"]),
        states(line, "package"), "|"
}

END {
    print "| call | fluid | pairs worked | package | C -O2 | C -O3 | Rust | package / better C | package / Rust | package, states' time |"
    print "|---|---|---:|---:|---:|---:|---:|---:|---:|---:|"
    for (k = 1; k <= count; k++) print_times(lines[k])
}
