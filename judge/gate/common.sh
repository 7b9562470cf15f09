# What compare, listing, account, journal, histories and pairs share: each sets root and reads this file with `.`; same
# and beside also want a folder to work in, $work.
judge=$root/target/judge

# ready NAME COMMAND: builds the judge where it is missing or old, and the proved program NAME where it is
# missing and COMMAND, which would stand for it, is empty.
ready() {
    if [ -z "$2" ] && [ ! -x "$root/target/bin/$1" ]; then
        "$root/bin/build" "$1"
    fi
    if [ ! -x "$judge" ] || [ -n "$(find "$root/judge" -name '*.rs' -newer "$judge")" ]; then
        "$root/judge/gate/build"
    fi
}

# program NAME COMMAND: runs COMMAND, or the proved program NAME where it is empty.
program() { if [ -n "$2" ]; then $2; else "$root/bin/program" "$1"; fi; }

# first_difference FILE FILE: the number of the first line in which two files differ. Where only the
# last line feed differs it is the last line.
first_difference() {
    # Joined to an empty string, so that lines are never compared as numbers.
    LC_ALL=C awk -v a="$1" -v b="$2" 'BEGIN {
        do {
            n++
            more_a = (getline one < a) > 0
            more_b = (getline two < b) > 0
        } while (more_a && more_b && one "" == two "")
        print (more_a || more_b) ? n : n - 1
    }'
}

# show LABEL LINE FILE: that line of the file after the label, at most 2,000 characters of it.
show() { LC_ALL=C sed -n "${2}p" "$3" | cat -v | cut -c 1-2000 | sed "s/^/$1 /"; }

# same WHAT ONE FILE OTHER FILE [ASKED]: whether two files of $work are the same. Else it prints the first line that
# differs, called WHAT, as ONE and OTHER have it, before them that line of $work/asked where ASKED says what it
# is called, and returns 1.
same() {
    if cmp -s "$work/$3" "$work/$5"; then
        return 0
    fi
    line=$(first_difference "$work/$3" "$work/$5")
    echo "$1 $line differs"
    [ -z "${6:-}" ] || show "$6:" "$line" "$work/asked"
    show "$2:" "$line" "$work/$3"
    show "$4:" "$line" "$work/$5"
    return 1
}

# beside NAME COMMAND ASKED ANSWER: has the judge and the program NAME answer the lines of $work/asked,
# and prints how many answers agree, or the first that differs, and then returns 1. ASKED and ANSWER say
# what a line of either side is called.
beside() {
    status=0
    "$judge" "$1" < "$work/asked" > "$work/judge"
    program "$1" "$2" < "$work/asked" > "$work/answers" || status=$?
    if [ "$status" -ne 0 ]; then
        echo "$1: the program ended with status $status"
    fi
    same "$4" judge judge "$1" answers "$3" || return 1
    echo "$(($(wc -l < "$work/judge"))) $4s agree"
    return "$((status != 0))"
}
