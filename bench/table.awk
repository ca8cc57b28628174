# Makes two tables of the lines that `time measure` wrote in one or more processes: for each line and candidate the least, and
# how the fluids compare, for each pressure that is worked.
BEGIN { FS = "\t" }

{
    line = "| " $1 " | " $2 " | " $3 " |"
    if (!(line in seen)) {
        seen[line] = 1
        lines[++count] = line
        name[line] = $1
        fluid[line] = $2
        inputs[line] = $3
        worked[line] = $6
    }
    if (!((line, $4) in least) || $5 < least[line, $4]) least[line, $4] = $5 + 0
}

function smaller(a, b) { return a < b ? a : b }

# A time, a count or a ratio, and a dash where the line lacks it.
function cell(x) { return x == "" ? "—" : sprintf("%.2f", x) }

function ratio(a, b) { return b == "" || b == 0 ? "" : a / b }

function print_times(line,    package, naive, c_2, c_3, rust) {
    package = least[line, "package"]
    naive = least[line, "naive C"]
    c_2 = least[line, "C -O2"]
    c_3 = least[line, "C -O3"]
    rust = least[line, "Rust"]
    print line, cell(package), "|", cell(naive), "|", cell(c_2), "|", cell(c_3), "|", cell(rust), "|",
        cell(ratio(package, naive)), "|", cell(package / smaller(c_2, c_3)), "|", cell(package / rust), "|"
}

# A candidate's time for a pressure, as a part of the first fluid's.
function compared(line, first, candidate) {
    return cell(ratio(ratio(least[line, candidate], worked[line]), ratio(least[first, candidate], worked[first])))
}

function print_compared(line, first) {
    print line, cell(worked[first]), "|", cell(worked[line]), "|", compared(line, first, "package"), "|",
        compared(line, first, "naive C"), "|", compared(line, first, "C -O2"), "|", compared(line, first, "C -O3"), "|",
        compared(line, first, "Rust"), "|"
}

END {
    print "| function | fluid | inputs | package | naive C | C -O2 | C -O3 | Rust | package / naive C | package / better C | package / Rust |"
    print "|---|---|---|---:|---:|---:|---:|---:|---:|---:|---:|"
    for (k = 1; k <= count; k++) print_times(lines[k])
    print ""
    print "for each pressure that is worked, as a part of the first fluid's time"
    print ""
    print "| function | fluid | inputs | pressures, first fluid | pressures | package | naive C | C -O2 | C -O3 | Rust |"
    print "|---|---|---|---:|---:|---:|---:|---:|---:|---:|"
    for (k = 1; k <= count; k++) {
        asked = name[lines[k]] SUBSEP inputs[lines[k]]
        if (asked in first_line) print_compared(lines[k], first_line[asked])
        else first_line[asked] = lines[k]
    }
}
