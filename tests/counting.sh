# Counting, for the scripts that end with 'N passed, M failed'; they source this file.
#
# What is counted is added to the kind that `kind` names. A script that tells kinds apart names them first and sets `kind`
# before it counts, and ends with `print_kinds`; any other has the one kind and ends with `print_sum`.

kind=all
kinds=()
declare -A passed failed

# The sums of these kinds, from 0 on, are printed in this order.
tell_apart() { # tell_apart KIND...
    local name
    for name in "$@"; do
        kinds+=("$name")
        passed[$name]=0
        failed[$name]=0
    done
}

# For a part that is a function of the script: it counts anew, and ends with a sum of its own.
forget_counts() {
    kind=all kinds=() passed=() failed=()
}

add() { # add PASSED FAILED
    [ -n "${passed[$kind]:-}" ] || tell_apart "$kind"
    passed[$kind]=$((${passed[$kind]} + $1))
    failed[$kind]=$((${failed[$kind]} + $2))
}

# What is wrong, told and counted once.
fault() { # fault WHAT
    echo "$1"
    add 0 1
}

# One check, by its exit status.
count() { # count WHAT STATUS
    if [ "$2" -eq 0 ]; then add 1 0; else fault "$1: FAILED"; fi
}

# ---- the counts of parts, which end with a line of the same form

# A number with a zero in front would be read as another.
readonly count_form='(0|[1-9][0-9]*) passed, (0|[1-9][0-9]*) failed'

# A part that checked nothing says nothing, and one whose status tells another story than its count is not believed.
judge_end() { # judge_end NAME STATUS PASSED FAILED
    if [ $(($3 + $4)) -eq 0 ]; then
        fault "$1: FAILED, it ended with status $2 and nothing was checked"
    elif [ "$2" != 0 ] && [ "$4" -eq 0 ]; then
        fault "$1: FAILED, it ended with status $2 though nothing failed"
    elif [ "$2" = 0 ] && [ "$4" -ne 0 ]; then
        fault "$1: FAILED, it ended with status 0 though something failed"
    fi
}

# Adds the last line of a part's log. A part without a count is one failure.
add_part() { # add_part NAME STATUS LOG
    local last right wrong
    last=$(tail -n 1 "$3")
    if [[ ! $last =~ ^$count_form$ ]]; then
        fault "$1: FAILED, it ended with status $2 and no count"
        return
    fi
    right=${BASH_REMATCH[1]} wrong=${BASH_REMATCH[2]}
    add "$right" "$wrong"
    judge_end "$1" "$2" "$right" "$wrong"
}

# The lines 'KIND: N passed, M failed' that stand right before a log's last line.
sums_before_end() { # sums_before_end LOG
    tac "$1" | sed 1d | sed -nE "/^.+: $count_form\$/!q; p" | tac
}

# Adds a part that tells kinds apart, each of its sums to its own kind. They have to make up its last line.
add_part_by_kinds() { # add_part_by_kinds NAME STATUS LOG
    local line right=0 wrong=0
    while IFS= read -r line; do
        [[ $line =~ ^(.+):\ $count_form$ ]]
        kind=${BASH_REMATCH[1]} add "${BASH_REMATCH[2]}" "${BASH_REMATCH[3]}"
        right=$((right + BASH_REMATCH[2])) wrong=$((wrong + BASH_REMATCH[3]))
    done < <(sums_before_end "$3")
    if [ "$(tail -n 1 "$3")" = "$right passed, $wrong failed" ]; then
        judge_end "$1" "$2" "$right" "$wrong"
    else
        fault "$1: FAILED, it ended with status $2, and its sums do not make up its last line"
    fi
}

# What a part wrote may end within a line, and the next line should not.
end_line() { # end_line LOG
    [ -z "$(tail -c 1 "$1")" ] || echo
}

# ---- the end of a script

# The last line of a script; its status is the script's. Nothing counted is a failure.
print_sum() {
    local name right=0 wrong=0
    for name in "${kinds[@]}"; do
        right=$((right + ${passed[$name]})) wrong=$((wrong + ${failed[$name]}))
    done
    if [ $((right + wrong)) -eq 0 ]; then
        echo "nothing was counted: FAILED"
        wrong=1
    fi
    echo "$right passed, $wrong failed"
    [ "$wrong" -eq 0 ]
}

# A line for each kind before the last line. A kind of which nothing was counted is a failure.
print_kinds() {
    local name
    for name in "${kinds[@]}"; do
        [ $((${passed[$name]} + ${failed[$name]})) -gt 0 ] || kind=$name fault "$name: FAILED, nothing was counted"
    done
    for name in "${kinds[@]}"; do
        echo "$name: ${passed[$name]} passed, ${failed[$name]} failed"
    done
    print_sum
}
