#!/usr/bin/env bash
# A month's end, of a book in a file. Stop the server first: one program at a time has the file.
#
#     examples/month-end.sh BOOK MONTH CLERK FOLDER
#
# It closes MONTH and leaves in FOLDER the voucher, the lines up to this closing as CSV, and a copy of the book with its log.
# The annuals that are due after the month go to standard output. Given again it closes nothing twice and overwrites nothing.
# CLERK is a number that only month ends use: the closing of 2024-02 is its request 202402.
# OFFICE may name the program; else it is ./office of this repository.
set -euo pipefail
umask 077
work=

fail() {
    printf 'month-end: %s\n' "$1" >&2
    exit "${2:-1}"
}

# Runs the program on the book that comes first.
run() {
    local status=0
    "$office" --book "$@" || status=$?
    case $status in
    0) ;;
    4) fail "there is no room to write to" ;;
    5) fail "$1 can't be opened or written, or another program has it" ;;
    6) fail "$1 is not an office's book; docs/BOOK.md says what to do" ;;
    *) fail "the program ended with exit status $status; docs/COMMANDS.md tells each" ;;
    esac
}

check_words() {
    [[ $# -eq 4 ]] || fail "usage: month-end.sh BOOK MONTH CLERK FOLDER" 2
    [[ $2 =~ ^20[0-9][0-9]-(0[1-9]|1[0-2])$ ]] || fail "$2 is not a month, as 2024-02" 2
    [[ $3 =~ ^[1-9][0-9]{0,3}$ ]] || fail "$3 is not a clerk's number, 1 to 9999" 2
    [[ -f $1 ]] || fail "there is no book $1"
    [[ -d $4 && -w $4 ]] || fail "$4 is not a folder that can be written"
}

# Gives a file its name in the folder, whole or not at all. One that is there already stays, and has to be the same.
keep() {
    local name=$folder/$2
    if [[ ! -e $name ]]; then
        cp -- "$1" "$name.part" || fail "$name can't be written"
        sync -- "$name.part" || fail "$name can't be written"
        mv -n -- "$name.part" "$name"
        sync -- "$folder"
    fi
    cmp -s -- "$1" "$name" || fail "$name is there already, and is another one"
}

close_month() {
    local reply made="^\\{\"act\":.*\"amount\":(-?[0-9]+),.*\"month\":\"$month\"\\}\\}\$"
    reply=$(printf '{"clerk":%s,"request":%s,"act":{"kind":"close","month":"%s"}}\n' "$clerk" "${month/-/}" "$month" | run "$book" batch)
    [[ $reply =~ $made ]] || fail "$month is not closed by this: $reply"
    amount=${BASH_REMATCH[1]}
}

# The voucher, and the lines up to this closing, of a book.
write_lists() {
    run "$1" voucher "$month" >"$2.txt"
    run "$1" export >"$2.all"
    awk -F, -v month="$month" 'NR == 1 || $1 <= month' "$2.all" >"$2.csv"
}

check_lists() {
    local sum
    sum=$(awk -F, -v month="$month" '$1 == month { sum += $8 } END { print sum + 0 }' "$work/book.csv")
    [[ $sum == "$amount" ]] || fail "the lines come to $sum, and the closing to $amount"
    grep -qx "Month: $month" "$work/book.txt" || fail "the voucher is of another month"
    grep -qx "Total: $amount" "$work/book.txt" || fail "the voucher doesn't come to $amount"
}

print_due() {
    local day
    day=$(date -d "$month-01 +1 month -1 day" +%F)
    printf '%s is closed, %s dollars. Annuals that are due by 120 days after %s:\n' "$month" "$amount" "$day"
    run "$book" due "$day"
}

# A log above its 41 bytes has acts that the file doesn't have (docs/BOOK.md).
check_log() {
    [[ $(stat -c %s -- "$book-wal") -le 41 ]] || fail "another program has used $book meanwhile; give this again"
}

copy_book() {
    local copy=$folder/book-$month
    if [[ ! -e $copy ]]; then
        run "$book" batch </dev/null
        check_log
        rm -rf -- "$copy.part"
        mkdir -- "$copy.part" || fail "$copy can't be written"
        cp -- "$book" "$book-wal" "$copy.part" || fail "$copy can't be written"
        sync -- "$copy.part"/* "$copy.part" || fail "$copy can't be written"
        check_log
        try_copy "$copy.part"
        mv -nT -- "$copy.part" "$copy"
        sync -- "$folder"
    fi
    try_copy "$copy"
}

# Opens a copy of the copy, which does each of its acts again, and compares what it says of the month.
try_copy() {
    cp -- "$1/${book##*/}" "$work/try" || fail "the copy $1 is not whole"
    cp -- "$1/${book##*/}-wal" "$work/try-wal" || fail "the copy $1 is not whole"
    "$office" --book "$work/try" batch </dev/null >"$work/said" || fail "the copy $1 can't be used: the program ends with exit status $?"
    write_lists "$work/try" "$work/try"
    cmp -s "$work/try.txt" "$work/book.txt" || fail "the copy $1 has another voucher of $month than $book"
    cmp -s "$work/try.csv" "$work/book.csv" || fail "the copy $1 has other lines up to $month than $book"
}

check_words "$@"
office=${OFFICE:-$(dirname "$0")/../office} book=$1 month=$2 clerk=$3 folder=$4
work=$(mktemp -d) || fail "there is no room for work files"
trap 'rm -rf -- "$work"' EXIT
close_month
write_lists "$book" "$work/book"
check_lists
keep "$work/book.txt" "voucher-$month.txt"
keep "$work/book.csv" "lines-$month.csv"
print_due
copy_book
