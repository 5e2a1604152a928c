#!/usr/bin/env bash
# Tests of the program vamluyak from outside: what it prints, and its exit status.
#
#   tests/program.sh [PROGRAM]        PROGRAM: the variable of that name, or crates/vamluyak/out/vamluyak, where it is not given
#
# Prints a line for each case that fails and, last, how many ran and how many failed. Status 1 where one failed.
set -euo pipefail
cd "$(dirname "$0")/.."
program=${1:-${PROGRAM:-crates/vamluyak/out/vamluyak}}
[ -x "$program" ] || { echo "tests/program.sh: there is no program at $program: run make demo" >&2; exit 1; }

room=$(mktemp -d)
trap 'rm -rf "$room"' EXIT
ran=0
failed=0

failure() { # WHAT WHY
    failed=$((failed + 1))
    printf 'FAILED: %s: %s\n' "$1" "$2"
}

# Runs the program on the words; leaves its status in $status and what it wrote in $room/out and $room/err.
run() { # WORD..
    ran=$((ran + 1))
    status=0
    "$program" "$@" >"$room/out" 2>"$room/err" </dev/null || status=$?
}

# The bytes of hexadecimal pairs, on standard output.
binary() { # HEX
    local pair
    for pair in $1; do printf '%b' "\\x$pair"; done
}

# N times a pair.
times() { # N HEX
    local i
    for ((i = 0; i < $1; i++)); do printf '%s ' "$2"; done
}

# The last run ended with the status, wrote exactly the line to standard output and, where it was accepted, nothing to standard error.
is_line() { # WHAT STATUS LINE
    if [ "$status" -ne "$2" ]; then
        failure "$1" "status $status, and not $2"
    elif ! printf '%s\n' "$3" | cmp -s - "$room/out"; then
        failure "$1" "wrote '$(head -c 300 "$room/out" | tr '\t' '|')', and not '$(printf '%s' "$3" | tr '\t' '|')'"
    elif [ "$2" -eq 0 ] && [ -s "$room/err" ]; then
        failure "$1" "wrote to standard error: $(head -n 1 "$room/err")"
    fi
}

# The last run ended with the status, and what it wrote has each of the words; with err, it wrote nothing to standard output.
has_words() { # WHAT STATUS out|err WORD..
    local what=$1 wanted=$2 stream=$3 word
    shift 3
    if [ "$status" -ne "$wanted" ]; then
        failure "$what" "status $status, and not $wanted"
        return
    fi
    if [ "$stream" = err ] && [ -s "$room/out" ]; then
        failure "$what" "wrote to standard output: $(head -n 1 "$room/out")"
        return
    fi
    for word in "$@"; do
        if ! grep -qF -- "$word" "$room/$stream"; then
            failure "$what" "standard $stream lacks '$word': $(head -n 3 "$room/$stream" | tr '\n' ' ')"
            return
        fi
    done
}

# The kind of file that is checked, and the role that a refused line gives it.
kind=request
role=request

# One file, given as bytes and as hexadecimal text, gives the one line.
checks() { # HEX STATUS LINE
    binary "$1" >"$room/file.bin"
    run check "$kind" "$room/file.bin" --tsv
    is_line "$kind, bytes '${1:0:90}'" "$2" "$3"
    printf '%s\n' "$1" >"$room/file.hex"
    run check "$kind" "$room/file.hex" --tsv
    is_line "$kind, text '${1:0:90}'" "$2" "$3"
}

accepts() { # HEX
    checks "$1" 0 accepted
}

refuses() { # HEX NUMBER LAYER ITEMS PLACE
    checks "$1" 1 "$(printf 'refused\t%s\t%s\t%s\t%s\t%s' "$role" "$2" "$3" "$4" "$5")"
}

# A file of hexadecimal text with these bytes; the next run can read it.
text_file() { # NAME HEX
    printf '%s\n' "$2" >"$room/$1.hex"
}

# A table of refusals, one to a line: bytes | number | layer | items | place.
refused_table() {
    local hex number layer items place
    while IFS='|' read -r hex number layer items place; do
        read -r hex <<<"$hex"
        read -r number <<<"$number"
        read -r layer <<<"$layer"
        read -r items <<<"$items"
        read -r place <<<"$place"
        case $hex in '#'*) continue ;; esac
        [ -n "$number" ] || continue
        refuses "$hex" "$number" "$layer" "$items" "$place"
    done
}

# ---- Accepted requests

# the smallest, with a combining byte, and every code at the ends of its range
accepts '00 01 00 01'
accepts '01 01 01 00 01'
accepts '00 01 00 FF'
accepts '00 01 01 02 01'
accepts '00 01 01 02 FF'
accepts '00 01 02 01 01 00 01 00'
accepts '00 01 02 01 01 00 FF 00'
accepts '00 01 02 01 01 01 01 02 00'
accepts '00 01 02 01 01 01 01 FF 00'
accepts '00 01 02 01 01 02 01 01 61 00'
accepts '00 01 02 01 01 04 01 01 61'
accepts '00 01 02 01 01 07 01 02 01 61 01 62'
# two elements of one category, two elements without a tag, two tags that differ
accepts '00 02 00 01 00 01'
accepts '00 02 01 02 07 01 03 08'
# references: a tag twice, a tag that no element carries, the ends of the ranges
accepts '02 01 01 02 07 02 02 07 07 01 08'
accepts '02 01 00 01 01 01 01'
accepts '02 01 00 01 01 01 FF'
# the greatest counts and lengths: 16 elements, 8 attributes, 64 bytes, 16 references of 16 tags
accepts "00 10 $(times 16 '00 01')"
accepts "00 01 02 01 08 $(times 8 '00 01 00')"
accepts "00 01 02 01 01 00 01 40 $(times 64 61)"
accepts "00 01 02 01 01 02 01 40 $(times 64 61) 00"
accepts "02 01 00 01 10 $(times 16 "10 $(times 16 01)")"
# two elements, and the single request of one choice among three
accepts '00 03 02 01 01 00 01 01 61 02 02 01 00 03 01 73 02 01 01 00 01 01 62'
accepts '00 02 02 02 01 00 03 01 73 02 01 01 00 01 01 62'

# ---- Refused requests: each number, at each layer at which it can occur, for each field

refused_table <<'TABLE'
# 11, layer 1: the bytes end before the request map, the combining byte, the count of elements, the count of references
                                            | 11 | 1 | - | 0
01                                          | 11 | 1 | - | 1
00                                          | 11 | 1 | - | 1
01 01                                       | 11 | 1 | - | 2
02 01 00 01                                 | 11 | 1 | - | 4
# 11, layer 2, element: before its map, category, tag, count of attributes; before a later element
00 10                                       | 11 | 2 | element 0 | 2
00 01 00                                    | 11 | 2 | element 0 | 3
00 01 01 02                                 | 11 | 2 | element 0 | 4
00 01 02 02                                 | 11 | 2 | element 0 | 4
00 01 03 02 07                              | 11 | 2 | element 0 | 5
00 02 00 01                                 | 11 | 2 | element 1 | 4
# 11, layer 2, reference: before its count, a tag, a later reference
02 01 00 01 01                              | 11 | 2 | reference 0 | 5
02 01 00 01 01 01                           | 11 | 2 | reference 0 | 6
02 01 00 01 01 02 07                        | 11 | 2 | reference 0 | 7
02 01 00 01 02 01 07                        | 11 | 2 | reference 1 | 7
# 11, layer 3: before its map, id, type, issuer length, value length; inside an issuer, a value; before a later attribute
00 01 02 01 01                              | 11 | 3 | element 0 attribute 0 | 5
00 01 02 01 01 00                           | 11 | 3 | element 0 attribute 0 | 6
00 01 02 01 01 01 01                        | 11 | 3 | element 0 attribute 0 | 7
00 01 02 01 01 02 01                        | 11 | 3 | element 0 attribute 0 | 7
00 01 02 01 01 02 01 02                     | 11 | 3 | element 0 attribute 0 | 8
00 01 02 01 01 02 01 02 61                  | 11 | 3 | element 0 attribute 0 | 9
00 01 02 01 01 02 01 01 61                  | 11 | 3 | element 0 attribute 0 | 9
00 01 02 01 01 00 01                        | 11 | 3 | element 0 attribute 0 | 7
00 01 02 01 01 00 01 01                     | 11 | 3 | element 0 attribute 0 | 8
00 01 02 01 01 00 01 03 61 62               | 11 | 3 | element 0 attribute 0 | 10
00 01 02 01 02 00 01 00                     | 11 | 3 | element 0 attribute 1 | 8
# 12, layer 1: each unnamed bit of the request map
04                                          | 12 | 1 | - | 0
08                                          | 12 | 1 | - | 0
10                                          | 12 | 1 | - | 0
20                                          | 12 | 1 | - | 0
40                                          | 12 | 1 | - | 0
80                                          | 12 | 1 | - | 0
07 01 01 00 01                              | 12 | 1 | - | 0
# 12, layer 2: each unnamed bit of an element's map
00 01 04                                    | 12 | 2 | element 0 | 2
00 01 08                                    | 12 | 2 | element 0 | 2
00 01 10                                    | 12 | 2 | element 0 | 2
00 01 20                                    | 12 | 2 | element 0 | 2
00 01 40                                    | 12 | 2 | element 0 | 2
00 01 80                                    | 12 | 2 | element 0 | 2
00 02 00 01 FF                              | 12 | 2 | element 1 | 4
# 12, layer 3: each unnamed bit of an attribute's map
00 01 02 01 01 08                           | 12 | 3 | element 0 attribute 0 | 5
00 01 02 01 01 10                           | 12 | 3 | element 0 attribute 0 | 5
00 01 02 01 01 20                           | 12 | 3 | element 0 attribute 0 | 5
00 01 02 01 01 40                           | 12 | 3 | element 0 attribute 0 | 5
00 01 02 01 01 80                           | 12 | 3 | element 0 attribute 0 | 5
00 01 02 01 02 00 01 00 0F                  | 12 | 3 | element 0 attribute 1 | 8
# 13, layer 1: combining byte, count of elements, count of references
01 00                                       | 13 | 1 | - | 1
01 02                                       | 13 | 1 | - | 1
01 FF                                       | 13 | 1 | - | 1
00 00                                       | 13 | 1 | - | 1
00 11                                       | 13 | 1 | - | 1
00 FF                                       | 13 | 1 | - | 1
02 01 00 01 00                              | 13 | 1 | - | 4
02 01 00 01 11                              | 13 | 1 | - | 4
# 13, layer 2, element: category, tag, count of attributes
00 01 00 00                                 | 13 | 2 | element 0 | 3
00 01 01 02 00                              | 13 | 2 | element 0 | 4
00 01 02 02 00                              | 13 | 2 | element 0 | 4
00 01 02 02 09                              | 13 | 2 | element 0 | 4
00 03 00 01 00 02 00 00                     | 13 | 2 | element 2 | 7
# 13, layer 2, reference: count of tags, a tag
02 01 00 01 01 00                           | 13 | 2 | reference 0 | 5
02 01 00 01 01 11                           | 13 | 2 | reference 0 | 5
02 01 00 01 01 02 07 00                     | 13 | 2 | reference 0 | 7
02 01 00 01 02 01 07 00                     | 13 | 2 | reference 1 | 7
# 13, layer 3: id, type, issuer length, value length
00 01 02 01 01 00 00                        | 13 | 3 | element 0 attribute 0 | 6
00 01 02 01 01 01 01 00                     | 13 | 3 | element 0 attribute 0 | 7
00 01 02 01 01 01 01 01                     | 13 | 3 | element 0 attribute 0 | 7
00 01 02 01 01 02 01 00                     | 13 | 3 | element 0 attribute 0 | 7
00 01 02 01 01 02 01 41                     | 13 | 3 | element 0 attribute 0 | 7
00 01 02 01 01 00 01 41                     | 13 | 3 | element 0 attribute 0 | 7
00 01 02 01 01 00 01 FF                     | 13 | 3 | element 0 attribute 0 | 7
00 02 00 01 02 01 02 00 01 00 00 00         | 13 | 3 | element 1 attribute 1 | 11
# 14, layer 1 only: after the elements, after the references
00 01 00 01 00                              | 14 | 1 | - | 4
00 01 00 01 00 00                           | 14 | 1 | - | 4
02 01 00 01 01 01 07 00                     | 14 | 1 | - | 7
00 01 02 01 01 00 01 01 61 61               | 14 | 1 | - | 9
# 15, layer 2 only: the later tag; after the tag's own range; before what follows it
00 02 01 02 07 01 03 07                     | 15 | 2 | element 1 | 7
00 02 01 02 07 01 02 07                     | 15 | 2 | element 1 | 7
00 03 01 02 07 00 03 01 01 07               | 15 | 2 | element 2 | 9
00 02 01 02 07 03 03 07 00                  | 15 | 2 | element 1 | 7
# the first failing field decides
04 00                                       | 12 | 1 | - | 0
00 11 04                                    | 13 | 1 | - | 1
00 02 01 02 07 01 00 07                     | 13 | 2 | element 1 | 6
00 02 01 02 07 05 03 07                     | 12 | 2 | element 1 | 5
TABLE

# one more than the greatest counts and lengths, with all that they promise
refuses "00 11 $(times 17 '00 01')" 13 1 - 1
refuses "00 01 02 01 09 $(times 9 '00 01 00')" 13 2 'element 0' 4
refuses "00 01 02 01 01 00 01 41 $(times 65 61)" 13 3 'element 0 attribute 0' 7
refuses "00 01 02 01 01 02 01 41 $(times 65 61) 00" 13 3 'element 0 attribute 0' 7
refuses "02 01 00 01 11 $(times 17 '01 07')" 13 1 - 4
refuses "02 01 00 01 01 11 $(times 17 07)" 13 2 'reference 0' 5
# items count from 0, up to the last
refuses "00 10 $(times 15 '00 01') 00 00" 13 2 'element 15' 33
refuses "00 01 02 01 08 $(times 7 '00 01 00') 00 00" 13 3 'element 0 attribute 7' 27
refuses "02 01 00 01 10 $(times 15 '01 07') 01 00" 13 2 'reference 15' 36

# a file far longer than any request
{ binary '00 01 00 01'; head -c 300000 /dev/zero; } >"$room/long.bin"
run check request "$room/long.bin" --tsv
is_line 'a long file' 1 "$(printf 'refused\trequest\t14\t1\t-\t4')"

# ---- Linked trees

kind=linked
role=tree
# no nodes; one; the worked cases; a link given twice, a link from a node to itself, a circle
accepts '00 00 00 00'
accepts '00 01 01 61 00 00'
accepts '00 04 01 61 01 62 01 63 01 64 00 03 00 00 00 03 00 00 00 02 00 03 00 01'
accepts '00 02 01 61 01 62 00 02 00 00 00 01 00 01 00 00'
accepts '00 01 01 61 00 02 00 00 00 00 00 00 00 00'
# names that begin alike, names with any bytes, a slash means nothing here
accepts '00 03 01 61 02 61 61 03 61 61 61 00 00'
accepts '00 03 01 00 01 FF 02 2F 2F 00 00'
# the greatest length
accepts "00 01 40 $(times 64 61) 00 00"
# the greatest counts: 1,024 names, 4,096 links
names=$(printf '02 %02X %02X ' $(for ((i = 0; i < 1024; i++)); do echo $((i / 256)) $((i % 256)); done))
accepts "04 00 $names 10 00 $(times 4096 '03 FF 00 00')"
refused_table <<'TABLE'
# 11, layer 1: the count of names, the count of links
                                            | 11 | 1 | - | 0
00                                          | 11 | 1 | - | 1
FF                                          | 11 | 1 | - | 1
00 00                                       | 11 | 1 | - | 2
00 00 00                                    | 11 | 1 | - | 3
00 01 01 61                                 | 11 | 1 | - | 4
# 11, layer 2, name: before its length, inside its bytes; before a later name
00 01                                       | 11 | 2 | name 0 | 2
00 01 02                                    | 11 | 2 | name 0 | 3
00 01 02 61                                 | 11 | 2 | name 0 | 4
00 02 01 61                                 | 11 | 2 | name 1 | 4
# 11, layer 2, link: before and inside its parent and its child; before a later link
00 01 01 61 00 01                           | 11 | 2 | link 0 | 6
00 01 01 61 00 01 00                        | 11 | 2 | link 0 | 7
00 01 01 61 00 01 FF                        | 11 | 2 | link 0 | 7
00 01 01 61 00 01 00 00                     | 11 | 2 | link 0 | 8
00 01 01 61 00 01 00 00 00                  | 11 | 2 | link 0 | 9
00 01 01 61 00 02 00 00 00 00               | 11 | 2 | link 1 | 10
# 13, layer 1: the count of names, the count of links
04 01                                       | 13 | 1 | - | 0
FF FF                                       | 13 | 1 | - | 0
00 00 10 01                                 | 13 | 1 | - | 2
00 01 01 61 FF FF                           | 13 | 1 | - | 4
# 13, layer 2: the length of a name
00 01 00                                    | 13 | 2 | name 0 | 2
00 01 41                                    | 13 | 2 | name 0 | 2
00 02 01 61 00                              | 13 | 2 | name 1 | 4
# 14, layer 1
00 00 00 00 00                              | 14 | 1 | - | 4
00 01 01 61 00 01 00 00 00 00 07 08         | 14 | 1 | - | 10
# 16, layer 2: the length byte of the later name
00 02 01 61 01 61 00 00                     | 16 | 2 | name 1 | 4
00 03 01 61 02 61 62 01 61                  | 16 | 2 | name 2 | 7
# 17, layer 2: the parent, the child, both; every number is read before it is tried
00 01 01 61 00 01 00 01 00 00               | 17 | 2 | link 0 | 6
00 01 01 61 00 01 00 00 00 01               | 17 | 2 | link 0 | 8
00 01 01 61 00 01 FF FF FF FF               | 17 | 2 | link 0 | 6
00 02 01 61 01 62 00 02 00 00 00 01 00 01 00 02 | 17 | 2 | link 1 | 14
00 00 00 01 00 00 00 00                     | 17 | 2 | link 0 | 4
# the first failing field decides
00 02 01 61 01 61                           | 16 | 2 | name 1 | 4
00 01 01 61 00 01 00 07                     | 17 | 2 | link 0 | 6
TABLE
refuses "04 01 $names 02 04 00 00 00" 13 1 - 0
refuses "04 00 $names 00 01 04 00 00 00" 17 2 'link 0' 3076
refuses "04 00 $names 00 01 00 00 03 FF 00" 14 1 - 3080

# ---- Path trees

kind=paths
accepts '00 00'
accepts '00 01 01 61'
accepts '00 05 01 6E 03 6E 2F 70 05 6E 2F 70 2F 6D 02 6E 70 05 6E 2F 71 2F 6D'
accepts "00 01 40 $(times 64 61)"
paths=$(printf '02 %02X %02X ' $(for ((i = 0; i < 1024; i++)); do echo $((64 + i / 64)) $((128 + i % 64)); done))
accepts "04 00 $paths"
refuses "04 01 $paths 01 61" 13 1 - 0
refused_table <<'TABLE'
                                            | 11 | 1 | - | 0
00                                          | 11 | 1 | - | 1
00 01                                       | 11 | 2 | name 0 | 2
00 01 02 61                                 | 11 | 2 | name 0 | 4
00 02 01 61                                 | 11 | 2 | name 1 | 4
04 01                                       | 13 | 1 | - | 0
00 01 00                                    | 13 | 2 | name 0 | 2
00 01 41                                    | 13 | 2 | name 0 | 2
00 00 00                                    | 14 | 1 | - | 2
00 01 01 61 00 00                           | 14 | 1 | - | 4
00 02 01 61 01 61                           | 16 | 2 | name 1 | 4
00 02 03 61 2F 62 03 61 2F 62               | 16 | 2 | name 1 | 6
# 18: an empty segment at the start, at the end, in the middle; nothing but separators
00 01 02 2F 61                              | 18 | 2 | name 0 | 2
00 01 02 61 2F                              | 18 | 2 | name 0 | 2
00 01 04 61 2F 2F 62                        | 18 | 2 | name 0 | 2
00 01 01 2F                                 | 18 | 2 | name 0 | 2
00 02 01 61 02 61 2F                        | 18 | 2 | name 1 | 4
# 11 at the bytes of a path before 18; 18 before what follows
00 01 03 2F 61                              | 11 | 2 | name 0 | 5
00 02 01 2F 01 2F                           | 18 | 2 | name 0 | 2
TABLE

# ---- Rule policies

kind=rules
role=point
accepts '01 00 01'
accepts '01 00 02'
accepts '02 01 02 01 04 02 03 03 62 6F 62 00 01'
accepts '01 01 01 01 00 01 01 00'
accepts '01 01 01 01 07 FF FF 02 01 61 01 62'
accepts "40 $(times 64 '00 01')"
accepts "01 01 01 04 $(times 4 '00 01 01 00')"
accepts "01 01 01 01 02 01 01 40 $(times 64 61) 40 $(times 64 61)"
refused_table <<'TABLE'
# 11 at each layer
                                            | 11 | 1 | - | 0
01                                          | 11 | 2 | rule 0 | 1
01 00                                       | 11 | 2 | rule 0 | 2
01 01 01                                    | 11 | 2 | rule 0 | 3
02 00 01                                    | 11 | 2 | rule 1 | 3
01 01 01 01                                 | 11 | 3 | rule 0 condition 0 | 4
01 01 01 01 00                              | 11 | 3 | rule 0 condition 0 | 5
01 01 01 01 00 01                           | 11 | 3 | rule 0 condition 0 | 6
01 01 01 01 01 01 01                        | 11 | 3 | rule 0 condition 0 | 7
01 01 01 01 02 01 01                        | 11 | 3 | rule 0 condition 0 | 7
01 01 01 01 02 01 01 02 61                  | 11 | 3 | rule 0 condition 0 | 9
01 01 01 01 00 01 01                        | 11 | 3 | rule 0 condition 0 | 7
01 01 01 01 00 01 01 01                     | 11 | 3 | rule 0 condition 0 | 8
01 01 01 02 00 01 01 00                     | 11 | 3 | rule 0 condition 1 | 8
# 12: the map of a rule, the map of a condition
01 02                                       | 12 | 2 | rule 0 | 1
01 04                                       | 12 | 2 | rule 0 | 1
01 80                                       | 12 | 2 | rule 0 | 1
02 00 01 FF                                 | 12 | 2 | rule 1 | 3
01 01 01 01 08                              | 12 | 3 | rule 0 condition 0 | 4
01 01 01 01 80                              | 12 | 3 | rule 0 condition 0 | 4
01 01 01 02 00 01 01 00 10                  | 12 | 3 | rule 0 condition 1 | 8
# 13: the count of rules; effect and count of conditions; category, id, type, issuer length, value length
00                                          | 13 | 1 | - | 0
41                                          | 13 | 1 | - | 0
01 00 00                                    | 13 | 2 | rule 0 | 2
01 00 03                                    | 13 | 2 | rule 0 | 2
01 01 01 00                                 | 13 | 2 | rule 0 | 3
01 01 01 05                                 | 13 | 2 | rule 0 | 3
01 01 01 01 00 00                           | 13 | 3 | rule 0 condition 0 | 5
01 01 01 01 00 01 00                        | 13 | 3 | rule 0 condition 0 | 6
01 01 01 01 01 01 01 00                     | 13 | 3 | rule 0 condition 0 | 7
01 01 01 01 01 01 01 01                     | 13 | 3 | rule 0 condition 0 | 7
01 01 01 01 02 01 01 00                     | 13 | 3 | rule 0 condition 0 | 7
01 01 01 01 02 01 01 41                     | 13 | 3 | rule 0 condition 0 | 7
01 01 01 01 00 01 01 41                     | 13 | 3 | rule 0 condition 0 | 7
02 00 01 01 01 02 00 01 01 00 00 01 00      | 13 | 3 | rule 1 condition 1 | 12
# 14
01 00 01 00                                 | 14 | 1 | - | 3
01 01 01 01 00 01 01 00 00                  | 14 | 1 | - | 8
TABLE
refuses "41 $(times 65 '00 01')" 13 1 - 0
refuses "40 $(times 63 '00 01') 00 03" 13 2 'rule 63' 128

# ---- Grants

kind=grants
accepts '00 00'
accepts '00 01 05 61 6C 69 63 65 04 6F 70 65 6E 06 64 6F 6D 65 2D 31'
accepts '00 02 01 61 01 62 01 63 01 61 01 62 01 63'
accepts "00 01 40 $(times 64 61) 40 $(times 64 62) 40 $(times 64 63)"
accepts "04 00 $(times 1024 '01 61 01 62 01 63')"
refused_table <<'TABLE'
                                            | 11 | 1 | - | 0
00                                          | 11 | 1 | - | 1
00 01                                       | 11 | 2 | line 0 | 2
00 01 02 61                                 | 11 | 2 | line 0 | 4
00 01 01 61                                 | 11 | 2 | line 0 | 4
00 01 01 61 01                              | 11 | 2 | line 0 | 5
00 01 01 61 01 62                           | 11 | 2 | line 0 | 6
00 01 01 61 01 62 01                        | 11 | 2 | line 0 | 7
00 02 01 61 01 62 01 63                     | 11 | 2 | line 1 | 8
04 01                                       | 13 | 1 | - | 0
FF FF                                       | 13 | 1 | - | 0
00 01 00                                    | 13 | 2 | line 0 | 2
00 01 41                                    | 13 | 2 | line 0 | 2
00 01 01 61 00                              | 13 | 2 | line 0 | 4
00 01 01 61 41                              | 13 | 2 | line 0 | 4
00 01 01 61 01 62 00                        | 13 | 2 | line 0 | 6
00 02 01 61 01 62 01 63 01 61 01 62 41      | 13 | 2 | line 1 | 12
00 00 00                                    | 14 | 1 | - | 2
00 01 01 61 01 62 01 63 00                  | 14 | 1 | - | 8
TABLE
refuses "04 00 $(times 1023 '01 61 01 62 01 63') 01 61 01 62 00" 13 2 'line 1023' 6144
kind=request
role=request

# ---- Nodes below a node

# The nodes reached, one to a word: distance, node and name, with commas between.
below_is() { # WHAT WORDS NAME OPTION..
    local what=$1 wanted=$2
    shift 2
    run below "$@" --tsv
    is_line "$what" 0 "$(tr ' ,' '\n\t' <<<"$wanted")"
}

text_file four '00 04 01 61 01 62 01 63 01 64 00 03 00 00 00 03 00 00 00 02 00 03 00 01'
below_is 'Descendants of a' '0,0,"a" 1,2,"c" 1,3,"d" 2,1,"b"' a --linked "$room/four.hex"
below_is 'Children of a' '0,0,"a" 1,2,"c" 1,3,"d"' a --children --linked "$room/four.hex"
below_is 'Descendants of d' '0,3,"d" 1,1,"b"' d --linked "$room/four.hex"
below_is 'Descendants of b' '0,1,"b"' b --linked "$room/four.hex"
below_is 'Children of b' '0,1,"b"' b --linked "$room/four.hex" --children
text_file circle '00 02 01 61 01 62 00 02 00 00 00 01 00 01 00 00'
below_is 'a circle, from a' '0,0,"a" 1,1,"b"' a --linked "$room/circle.hex"
below_is 'a circle, from b' '0,1,"b" 1,0,"a"' b --linked "$room/circle.hex"
text_file own '00 01 01 61 00 02 00 00 00 00 00 00 00 00'
below_is 'a link to itself, given twice' '0,0,"a"' a --linked "$room/own.hex"
below_is 'a link to itself, Children' '0,0,"a"' a --linked "$room/own.hex" --children
text_file paths '00 05 01 6E 03 6E 2F 70 05 6E 2F 70 2F 6D 02 6E 70 05 6E 2F 71 2F 6D'
below_is 'Descendants of n' '0,0,"n" 1,1,"n/p" 2,2,"n/p/m"' n --paths "$room/paths.hex"
below_is 'Children of n' '0,0,"n" 1,1,"n/p"' n --paths "$room/paths.hex" --children
below_is 'Descendants of np' '0,3,"np"' np --paths "$room/paths.hex"
below_is 'Descendants of n/q/m' '0,4,"n/q/m"' n/q/m --paths "$room/paths.hex"
# the nearest of two ways counts
text_file ways '00 03 01 61 01 62 01 63 00 03 00 00 00 01 00 01 00 02 00 00 00 02'
below_is 'two ways' '0,0,"a" 1,1,"b" 1,2,"c"' a --linked "$room/ways.hex"
# a name that is no text is written in hexadecimal
text_file bytes '00 02 01 61 02 09 0A 00 01 00 00 00 01'
run below a --linked "$room/bytes.hex" --tsv
is_line 'a name that is no text' 0 "$(printf '0\t0\t"a"\n1\t1\thex 09 0a')"
# 1,024 nodes in a chain; all of them below one
chain=$(printf '%02X %02X %02X %02X ' $(for ((i = 0; i < 1023; i++)); do echo $((i / 256)) $((i % 256)) $(((i + 1) / 256)) $(((i + 1) % 256)); done))
text_file chain "04 00 01 61 ${names#02 00 00 } 03 FF $chain"
run below a --linked "$room/chain.hex" --tsv
if [ "$status" -ne 0 ] || [ "$(cut -f 1,2 "$room/out")" != "$(for ((i = 0; i < 1024; i++)); do printf '%s\t%s\n' $i $i; done)" ]; then
    failure 'a chain of 1,024 nodes' 'not every node at its distance'
fi

run below dome-1 --linked samples/tree-linked.hex
has_words 'below, for people' 0 out 'distance 0' 'node 1' dome-1 telescope 'distance 2' camera
run below site --paths samples/tree-paths.hex --tsv
is_line 'samples/tree-paths.hex' 0 "$(printf '0\t0\t"site"\n1\t1\t"site/dome-1"\n2\t2\t"site/dome-1/camera"')"
run below nobody --linked samples/tree-linked.hex
has_words 'an unknown name' 1 err nobody
run below nobody --linked samples/tree-linked.hex --tsv
has_words 'an unknown name, --tsv' 1 err nobody
run below a --linked samples/refused-link.hex --tsv
is_line 'below in a tree that is refused' 1 "$(printf 'refused\ttree\t17\t2\tlink 1\t14')"
run below a --paths samples/refused-path.hex --tsv
is_line 'below in paths that are refused' 1 "$(printf 'refused\ttree\t18\t2\tname 2\t8')"
run below a --paths samples/refused-path.hex
has_words 'below in paths that are refused, for people' 1 out 18 'name 2' 'byte 8'

# ---- Decisions

# What a decision point answers to a request.
decides() { # WHAT REQUEST OPTION POINT ANSWER
    text_file asked "$2"
    text_file point "$4"
    run decide "$room/asked.hex" "$3" "$room/point.hex" --tsv
    is_line "$1" 0 "$(tr ' ' '\t' <<<"$5")"
}

# subject-id s, action-id r, resource-id b
asked='00 03 02 02 01 00 03 01 73 02 03 01 00 04 01 72 02 01 01 00 01 01 62'
decides 'no conditions: Permit' "$asked" --rules '01 00 01' 'Permit ok 0'
decides 'no conditions: Deny' "$asked" --rules '01 00 02' 'Deny ok 0'
decides 'a met condition' "$asked" --rules '01 01 01 01 00 02 03 01 73' 'Permit ok 0'
decides 'a false condition' "$asked" --rules '01 01 01 01 00 02 03 01 74' 'NotApplicable ok 0'
decides 'nothing to compare, none must be present' "$asked" --rules '01 01 01 01 00 02 09 01 73' 'NotApplicable ok 0'
decides 'nothing to compare, one must be present' "$asked" --rules '01 01 01 01 04 02 09 01 73' 'Indeterminate missing-attribute 0'
decides 'one is present, with another value' "$asked" --rules '01 01 01 01 04 02 03 01 74' 'NotApplicable ok 0'
decides 'another category' "$asked" --rules '01 01 01 01 04 01 03 01 73' 'Indeterminate missing-attribute 0'
decides 'another type' "$asked" --rules '01 01 01 01 05 02 03 02 01 73' 'Indeterminate missing-attribute 0'
decides 'an issuer is named, and there is none' "$asked" --rules '01 01 01 01 06 02 03 01 69 01 73' 'Indeterminate missing-attribute 0'
issued='00 01 02 02 01 02 03 01 69 01 73'
decides 'the named issuer' "$issued" --rules '01 01 01 01 02 02 03 01 69 01 73' 'Permit ok 0'
decides 'another issuer' "$issued" --rules '01 01 01 01 02 02 03 01 6A 01 73' 'NotApplicable ok 0'
decides 'no issuer is named' "$issued" --rules '01 01 01 01 00 02 03 01 73' 'Permit ok 0'
decides 'all conditions are met' "$asked" --rules '01 01 02 02 00 02 03 01 73 00 01 01 01 62' 'Deny ok 0'
decides 'Indeterminate, then false: the rule does not apply' "$asked" --rules '02 01 02 02 04 09 09 01 78 00 02 03 01 7A 01 01 01 00 01 01 01 62' 'Permit ok 1'
decides 'false, then Indeterminate: the rule does not apply' "$asked" --rules '02 01 02 02 00 02 03 01 7A 04 09 09 01 78 01 01 01 00 01 01 01 62' 'Permit ok 1'
decides 'Indeterminate, then met: the rule is Indeterminate' "$asked" --rules '02 01 02 02 04 09 09 01 78 00 02 03 01 73 00 01' 'Indeterminate missing-attribute 0'
decides 'the first rule that applies answers' "$asked" --rules '03 01 01 01 00 02 03 01 7A 00 02 00 01' 'Deny ok 1'
decides 'the last of 64 rules' "$asked" --rules "40 $(times 63 '01 01 01 00 02 03 01 7A') 00 02" 'Deny ok 63'
decides 'an empty value' '00 01 02 02 01 00 03 00' --rules '01 01 01 01 00 02 03 00' 'Permit ok 0'
decides 'two attributes of one id, the second met' '00 01 02 02 02 00 03 01 73 00 03 01 74' --rules '01 01 01 01 00 02 03 01 74' 'Permit ok 0'

decides 'no lines' "$asked" --grants '00 00' 'Deny ok 0'
decides 'the first of two equal lines' "$asked" --grants '00 03 01 73 01 72 01 61 01 73 01 72 01 62 01 73 01 72 01 62' 'Permit ok 1'
decides 'no line is equal' "$asked" --grants '00 01 01 73 01 72 01 61' 'Deny ok 0'
decides 'a longer text' "$asked" --grants '00 01 02 73 73 01 72 01 62' 'Deny ok 0'
decides 'the last of 1,024 lines' "$asked" --grants "04 00 $(times 1023 '01 73 01 72 01 61') 01 73 01 72 01 62" 'Permit ok 1023'
decides 'no subject-id' '00 02 02 03 01 00 04 01 72 02 01 01 00 01 01 62' --grants '00 00' 'NotApplicable ok 0'
decides 'no action-id' '00 02 02 02 01 00 03 01 73 02 01 01 00 01 01 62' --grants '00 00' 'NotApplicable ok 0'
decides 'no resource-id' '00 02 02 02 01 00 03 01 73 02 03 01 00 04 01 72' --grants '00 00' 'NotApplicable ok 0'
decides 'a repeated subject-id' '00 03 02 02 02 00 03 01 73 00 03 01 73 02 03 01 00 04 01 72 02 01 01 00 01 01 62' --grants '00 01 01 73 01 72 01 62' 'Indeterminate processing-error 0'
decides 'a repeated action-id' '00 03 02 02 01 00 03 01 73 02 03 02 00 04 01 72 00 04 01 71 02 01 01 00 01 01 62' --grants '00 01 01 73 01 72 01 62' 'Indeterminate processing-error 0'
decides 'a repeated resource-id' '00 03 02 02 01 00 03 01 73 02 03 01 00 04 01 72 02 01 02 00 01 01 62 00 01 01 62' --grants '00 01 01 73 01 72 01 62' 'Indeterminate processing-error 0'
decides 'repeated, and another is missing' '00 02 02 02 02 00 03 01 73 00 03 01 73 02 03 01 00 04 01 72' --grants '00 00' 'NotApplicable ok 0'
decides 'type and issuer do not matter' '00 03 02 02 01 03 03 07 01 69 01 73 02 03 01 00 04 01 72 02 01 01 00 01 01 62' --grants '00 01 01 73 01 72 01 62' 'Permit ok 0'
immediate='09 49 6D 6D 65 64 69 61 74 65'
decides 'the scope Immediate' "00 03 02 02 01 00 03 01 73 02 03 01 00 04 01 72 02 01 02 00 01 01 62 00 02 $immediate" --grants '00 01 01 73 01 72 01 62' 'Permit ok 0'

# A request that asks for more than one decision is not put to a decision point.
not_single() { # WHAT REQUEST WORD
    text_file asked "$2"
    run decide "$room/asked.hex" --grants samples/grants.hex --tsv
    has_words "$1" 1 err "$room/asked.hex" 'not a single request' "$3"
}
not_single 'references' '02 01 01 02 07 01 01 07' references
not_single 'a repeated category' '00 02 00 02 00 02' category
not_single 'the scope Descendants' '00 01 02 01 02 00 01 01 62 00 02 0B 44 65 73 63 65 6E 64 61 6E 74 73' scope
not_single 'the scope Children' '00 01 02 01 02 00 01 01 62 00 02 08 43 68 69 6C 64 72 65 6E' scope
not_single 'a scope that is none' '00 01 02 01 02 00 01 01 62 00 02 01 78' scope

run decide samples/ask-alice.hex --grants samples/grants.hex --tsv
is_line 'alice, by the grants' 0 "$(printf 'Permit\tok\t1')"
run decide samples/ask-alice.hex --rules samples/policy.hex --tsv
is_line 'alice, by the rules' 0 "$(printf 'Deny\tok\t2')"
run decide samples/ask-alice.hex --grants samples/grants.hex
has_words 'a decision, for people' 0 out Permit ok 1
run decide samples/observatory.hex --grants samples/grants.hex
has_words 'samples/observatory.hex' 1 err samples/observatory.hex references
run decide samples/refused-tag.hex --grants samples/grants.hex --tsv
is_line 'decide on a request that is refused' 1 "$(printf 'refused\trequest\t15\t2\telement 1\t7')"
run decide samples/ask-alice.hex --rules samples/refused-rule.hex --tsv
is_line 'decide by rules that are refused' 1 "$(printf 'refused\tpoint\t13\t3\trule 1 condition 0\t13')"
run decide samples/ask-alice.hex --grants samples/policy.hex --tsv
is_line 'decide by grants that are rules' 1 "$(printf 'refused\tpoint\t13\t2\tline 0\t8')"

# ---- Enquiries

# The files of the enquiries that follow.
enquiry() { # REQUEST --linked|--paths TREE --rules|--grants POINT
    text_file asked "$1"
    text_file tree "$3"
    text_file point "$5"
    files=("$room/asked.hex" "$2" "$room/tree.hex" "$4" "$room/point.hex")
}

# Lines whose fields are separated by | and not by tabs.
fields() { # LINE..
    printf '%s\n' "$@" | tr '|' '\t'
}

rows_are() { # WHAT LINE..
    local what=$1
    shift
    run rows "${files[@]}" --tsv
    is_line "rows: $what" 0 "$(fields "$@")"
}

singles_are() { # WHAT LINE..
    local what=$1
    shift
    run singles "${files[@]}" --tsv
    is_line "singles: $what" 0 "$(fields "$@")"
}

# Standard input is the commands, in the form of printf; the answers are the lines.
works() { # WHAT COMMANDS LINE..
    local what=$1 commands=$2
    shift 2
    ran=$((ran + 1))
    status=0
    printf '%b' "$commands" | "$program" work "${files[@]}" >"$room/out" 2>"$room/err" || status=$?
    is_line "work: $what" 0 "$(fields "$@")"
}

no_nodes='00 00 00 00'
all_permitted='01 00 01'
ended='refused|31|-|the last row has been handed out'
rows_left='refused|32|-|a row is left'
no_verdict='refused|33|-|the request asks for no verdict'
fault_row='refused|35|-|the next row is a fault row'

# without references: one of all elements; each combination is a choice, and the last category moves first
enquiry "$asked" --linked "$no_nodes" --rules "$all_permitted"
rows_are 'one choice' 'row|0|0,0,0|-|Permit|ok|0|0' 'verdict|refused|33'
singles_are 'one choice' '0003020201000301730203010004017202010100010162'
enquiry '00 04 00 05 00 06 00 05 00 06' --linked "$no_nodes" --rules "$all_permitted"
rows_are 'each combination' 'row|0|0,0|-|Permit|ok|0|0' 'row|0|0,1|-|Permit|ok|0|0' 'row|0|1,0|-|Permit|ok|0|0' 'row|0|1,1|-|Permit|ok|0|0' 'verdict|refused|33'
enquiry '02 01 01 02 07 01 02 07 07' --linked "$no_nodes" --rules "$all_permitted"
rows_are 'a tag twice in a reference' 'row|0|0|-|Permit|ok|0|0' 'row|0|1|-|Permit|ok|0|0' 'verdict|refused|33'

# one bad reference does not silence the good ones
enquiry '02 02 03 02 07 01 00 03 01 73 03 02 08 01 00 03 01 74 04 01 07 02 08 09 01 08 01 63' --linked "$no_nodes" --rules '01 01 01 01 00 02 03 01 73'
rows_are 'references with unknown tags' 'row|0|0|-|Permit|ok|0|0' 'row|1|-|-|Indeterminate|syntax-error|41|1' 'row|2|0|-|NotApplicable|ok|0|0' 'row|3|-|-|Indeterminate|syntax-error|41|0' 'verdict|refused|33'
singles_are 'fault rows have none' 000102020100030173 - 000102020100030174 -

# the verdict
two='02 02 01 01 00 01 01 61 02 01 01 00 01 01 62'
enquiry "01 01 $two" --linked "$no_nodes" --rules '01 01 01 01 00 01 01 01 61'
rows_are 'Permit and NotApplicable: Deny' 'row|0|0|-|Permit|ok|0|0' 'row|0|1|-|NotApplicable|ok|0|0' 'verdict|Deny'
enquiry "01 01 $two" --linked "$no_nodes" --rules "$all_permitted"
rows_are 'all Permit: Permit' 'row|0|0|-|Permit|ok|0|0' 'row|0|1|-|Permit|ok|0|0' 'verdict|Permit'
run rows "${files[@]}"
has_words 'a verdict, for people' 0 out 'verdict: Permit' 'rows: 2, of them Permit 2, Deny 0, Indeterminate 0, NotApplicable 0'

# scope: a resource with these attributes, over nodes a to d with links a-d, a-c, c-b, b-a
resource() { # COUNT ATTRIBUTES
    enquiry "00 01 02 01 $1 $2" --linked '00 04 01 61 01 62 01 63 01 64 00 04 00 00 00 03 00 00 00 02 00 02 00 01 00 01 00 00' --rules "$all_permitted"
}
named_a='00 01 01 61'
children='00 02 08 43 68 69 6C 64 72 65 6E'
descendants='00 02 0B 44 65 73 63 65 6E 64 61 6E 74 73'
resource 02 "$named_a $descendants"
rows_are 'Descendants, in a circle: by distance, then by number' 'row|0|0|0|Permit|ok|0|0' 'row|0|0|2|Permit|ok|0|0' 'row|0|0|3|Permit|ok|0|0' 'row|0|0|1|Permit|ok|0|0' 'verdict|refused|33'
singles_are 'the name of the node, and no scope' 00010201010001''0161 00010201010001''0163 00010201010001''0164 00010201010001''0162
resource 02 "$children $named_a"
rows_are 'Children' 'row|0|0|0|Permit|ok|0|0' 'row|0|0|2|Permit|ok|0|0' 'row|0|0|3|Permit|ok|0|0' 'verdict|refused|33'
resource 02 "$named_a 00 02 09 49 6D 6D 65 64 69 61 74 65"
rows_are 'Immediate' 'row|0|0|-|Permit|ok|0|0' 'verdict|refused|33'
singles_are 'Immediate stays' 000102010200010161000209496d6d656469617465
resource 03 "$named_a $descendants $descendants"
rows_are 'two scopes' 'row|0|0|-|Indeterminate|syntax-error|42|0' 'verdict|refused|33'
resource 02 "$named_a 00 02 0B 64 65 73 63 65 6E 64 61 6E 74 73"
rows_are 'the scope descendants, in small letters' 'row|0|0|-|Indeterminate|syntax-error|43|0' 'verdict|refused|33'
resource 02 "$named_a 01 02 02 08 43 68 69 6C 64 72 65 6E"
rows_are 'a scope of another type' 'row|0|0|-|Indeterminate|syntax-error|43|0' 'verdict|refused|33'
resource 01 "$descendants"
rows_are 'a scope, and no resource-id' 'row|0|0|-|Indeterminate|syntax-error|44|0' 'verdict|refused|33'
resource 03 "$named_a $named_a $descendants"
rows_are 'a scope, and two resource-ids' 'row|0|0|-|Indeterminate|syntax-error|44|0' 'verdict|refused|33'
resource 02 "00 01 01 65 $descendants"
rows_are 'a resource-id that names no node' 'row|0|0|-|Indeterminate|processing-error|45|0' 'verdict|refused|33'
run rows "${files[@]}"
has_words 'a fault row, for people' 0 out '1 of 1' '"e"' Indeterminate processing-error '45 no node has the name' 'no verdict' 33 'Indeterminate 1'

# a common beginning is no descent, and each step of a path is a node: n, n/p, n/p/m, np, n/q/m
enquiry "00 01 02 01 02 00 01 01 6E $descendants" --paths '00 05 01 6E 03 6E 2F 70 05 6E 2F 70 2F 6D 02 6E 70 05 6E 2F 71 2F 6D' --grants '00 00'
rows_are 'below n in a path tree' 'row|0|0|0|NotApplicable|ok|0|0' 'row|0|0|1|NotApplicable|ok|0|0' 'row|0|0|2|NotApplicable|ok|0|0' 'verdict|refused|33'
run rows "${files[@]}"
has_words 'below n in a path tree, for people' 0 out '"n"' '"n/p"' '"n/p/m"' '3 of 3' 'NotApplicable 3'

# a rule with an Indeterminate condition and a later false one does not apply
enquiry "$asked" --linked "$no_nodes" --rules '02 01 02 02 04 09 09 01 78 00 02 03 01 7A 01 01 01 00 01 01 01 62'
rows_are 'Indeterminate, then false' 'row|0|0,0,0|-|Permit|ok|0|1' 'verdict|refused|33'
enquiry "$asked" --linked "$no_nodes" --rules '01 01 02 01 04 09 09 01 78'
rows_are 'Indeterminate' 'row|0|0,0,0|-|Indeterminate|missing-attribute|0|0' 'verdict|refused|33'

# the longest value, and the longest single request
enquiry "00 01 02 01 01 00 01 40 $(times 64 61)" --linked "$no_nodes" --rules "$all_permitted"
rows_are 'a value of 64 bytes' 'row|0|0|-|Permit|ok|0|0' 'verdict|refused|33'
enquiry "00 01 02 01 01 00 01 41 $(times 65 61)" --linked "$no_nodes" --rules "$all_permitted"
run rows "${files[@]}" --tsv
is_line 'rows: a value of 65 bytes' 1 "$(fields 'refused|request|13|3|element 0 attribute 0|7')"
text64="40 $(times 64 61)"
longest="00 10 $(for code in 11 12 13 14 15 16 17 18 19 1A 1B 1C 1D 1E 1F 20; do printf '02 %s 08 ' "$code"; times 8 "07 09 02 $text64 $text64"; done)"
enquiry "$longest" --linked "$no_nodes" --rules "$all_permitted"
singles_are 'the longest' "$(printf '%s' "$longest" | tr -d ' ' | tr 'A-F' 'a-f')"

# ---- Work

enquiry '03 01 01 01 05 07 02 01 07 01 08' --linked "$no_nodes" --rules "$all_permitted"
one='row|0|0|-|Permit|ok|0|0'
bad='row|1|-|-|Indeterminate|syntax-error|41|0'
works 'each call, to the end' 'verdict\nshow 4\nstep\nshow 4\nverdict\nstep\nverdict\nstep\nshow 4\nverdict\n' \
    "$rows_left" 'shown|4|00010005' "$one" "$fault_row" "$rows_left" "$bad" 'verdict|Deny' "$ended" "$ended" 'verdict|Deny'
works 'show does not move' 'show 4\nshow 65535\nstep\n' 'shown|4|00010005' 'shown|4|00010005' "$one"
works 'a buffer that is too short' 'show 3\nshow 0\nstep\n' 'refused|34|4|the buffer is too short' 'refused|34|4|the buffer is too short' "$one"
works 'a fault row is told before a short buffer' 'step\nshow 0\n' "$one" "$fault_row"
works 'the end is told before a short buffer' 'step\nstep\nshow 0\n' "$one" "$bad" "$ended"
works 'rewind' 'rewind\nstep\nrewind\nstep\nstep\nstep\nrewind\nverdict\nstep\n' rewound "$one" rewound "$one" "$bad" "$ended" rewound "$rows_left" "$one"
works 'an unknown command changes nothing' 'stpe\nstep\nstep 1\nSTEP\nshow\nshow x\nshow 65536\nshow -1\nstep\n' \
    'unknown|"stpe"' "$one" 'unknown|"step 1"' 'unknown|"STEP"' 'unknown|"show"' 'unknown|"show x"' 'unknown|"show 65536"' 'unknown|"show -1"' "$bad"
works 'a command that is no text' '\0377\nstep\n' 'unknown|hex ff' "$one"
works 'empty lines, spaces, carriage returns, no line feed at the end' '\n\n  step  \r\n \t\nverdict' "$one" "$rows_left"
ran=$((ran + 1))
status=0
"$program" work "${files[@]}" </dev/null >"$room/out" 2>"$room/err" || status=$?
[ "$status" -eq 0 ] && [ ! -s "$room/out" ] && [ ! -s "$room/err" ] || failure 'work: no input' "status $status"
enquiry '00 01 00 05' --linked "$no_nodes" --rules "$all_permitted"
works 'no verdict is asked for' 'verdict\nstep\nverdict\n' "$no_verdict" "$one" "$no_verdict"
# each line is answered before the next is read
ran=$((ran + 1))
mkfifo "$room/commands" "$room/answers"
"$program" work "${files[@]}" <"$room/commands" >"$room/answers" &
exec 3>"$room/commands" 4<"$room/answers"
answer=none
echo step >&3
read -r -t 10 answer <&4 || true
exec 3>&- 4<&-
wait $! || true
[ "${answer%%[^a-z]*}" = row ] || failure 'work: a line is answered at once' "got '$answer'"

# ---- The files of an enquiry: the tree is opened first, then the decision point, then the request

bad_tree="$(fields 'refused|tree|17|2|link 1|14')"
bad_point="$(fields 'refused|point|13|3|rule 1 condition 0|13')"
bad_request="$(fields 'refused|request|15|2|element 1|7')"
for command in rows singles work; do
    run $command samples/refused-tag.hex --linked samples/refused-link.hex --rules samples/refused-rule.hex --tsv
    is_line "$command: the tree is refused first" 1 "$bad_tree"
    run $command samples/refused-tag.hex --paths samples/refused-path.hex --rules samples/refused-rule.hex --tsv
    is_line "$command: a path tree is refused first" 1 "$(fields 'refused|tree|18|2|name 2|8')"
    run $command samples/refused-tag.hex --linked samples/tree-linked.hex --rules samples/refused-rule.hex --tsv
    is_line "$command: then the decision point" 1 "$bad_point"
    run $command samples/refused-tag.hex --linked samples/tree-linked.hex --grants samples/policy.hex --tsv
    is_line "$command: then the grants" 1 "$(fields 'refused|point|13|2|line 0|8')"
    run $command samples/refused-tag.hex --linked samples/tree-linked.hex --rules samples/policy.hex --tsv
    is_line "$command: then the request" 1 "$bad_request"
    run $command samples/refused-tag.hex --linked samples/tree-linked.hex --rules samples/policy.hex
    has_words "$command: a refused request, for people" 1 out samples/refused-tag.hex 'refusal 15' 'element 1' 'byte 7'
    run $command samples/observatory.hex --linked samples/absent.hex --rules samples/policy.hex
    has_words "$command: a tree that is not there" 1 err samples/absent.hex
    run $command samples/observatory.hex --linked samples/tree-linked.hex --rules samples/absent.hex
    has_words "$command: a decision point that is not there" 1 err samples/absent.hex
    run $command samples/absent.hex --linked samples/tree-linked.hex --rules samples/policy.hex
    has_words "$command: a request that is not there" 1 err samples/absent.hex
    run $command samples/observatory.hex --linked samples/tree-linked.hex
    has_words "$command without a decision point" 1 err '--rules FILE or --grants FILE is missing'
    run $command samples/observatory.hex --grants samples/grants.hex
    has_words "$command without a tree" 1 err '--linked FILE or --paths FILE is missing'
    run $command --linked samples/tree-linked.hex --grants samples/grants.hex
    has_words "$command without a request" 1 err 'the request is missing'
    run $command samples/observatory.hex --linked samples/tree-linked.hex --grants samples/grants.hex --children
    has_words "$command with --children" 1 err '--children'
    run $command samples/observatory.hex --linked samples/tree-linked.hex --grants samples/grants.hex --fast
    has_words "$command with an unknown option" 1 err "'--fast'"
    run $command samples/observatory.hex --linked samples/tree-linked.hex --paths samples/tree-paths.hex --grants samples/grants.hex
    has_words "$command with two trees" 1 err 'a tree is named twice'
done

files=(samples/observatory.hex --linked samples/tree-linked.hex --grants samples/grants-observatory.hex)
rows_are 'samples/observatory.hex' \
    'row|0|0,0,0|1|Permit|ok|0|0' 'row|0|0,0,0|3|Permit|ok|0|1' 'row|0|0,0,0|4|Permit|ok|0|2' \
    'row|0|1,0,0|1|Permit|ok|0|6' 'row|0|1,0,0|3|Permit|ok|0|7' 'row|0|1,0,0|4|Deny|ok|0|0' \
    'row|1|0,0,0|1|Permit|ok|0|3' 'row|1|0,0,0|3|Permit|ok|0|4' 'row|1|0,0,0|4|Permit|ok|0|5' \
    'row|2|-|-|Indeterminate|syntax-error|41|1' 'verdict|Deny'
run rows "${files[@]}"
has_words 'samples/observatory.hex, for people' 0 out '1 of 10' '10 of 10' '"alice"' '"bob"' '"open"' '"close"' '"dome-1"' '"telescope"' '"camera"' \
    '41 no element carries the tag' 'verdict: Deny' 'rows: 10, of them Permit 8, Deny 1, Indeterminate 1, NotApplicable 0'
# each single request, asked alone, gets the decision of its row
run singles "${files[@]}"
cp "$room/out" "$room/singles"
run rows "${files[@]}" --tsv
while IFS=$'\t' read -r -u 3 _ _ _ _ row_decision row_status _ row_place && read -r -u 4 single; do
    [ "$single" != - ] || continue
    text_file single "$single"
    run decide "$room/single.hex" --grants samples/grants-observatory.hex --tsv
    is_line "the single request $single, asked alone" 0 "$(fields "$row_decision|$row_status|$row_place")"
done 3<"$room/out" 4<"$room/singles"

# ---- Samples

for sample in 'linked tree-linked' 'paths tree-paths' 'rules policy' 'grants grants' 'grants grants-observatory' 'request ask-alice'; do
    run check "${sample% *}" "samples/${sample#* }.hex" --tsv
    is_line "samples/${sample#* }.hex --tsv" 0 accepted
done
run check linked samples/refused-link.hex --tsv
is_line 'samples/refused-link.hex --tsv' 1 "$(printf 'refused\ttree\t17\t2\tlink 1\t14')"
run check paths samples/refused-path.hex --tsv
is_line 'samples/refused-path.hex --tsv' 1 "$(printf 'refused\ttree\t18\t2\tname 2\t8')"
run check rules samples/refused-rule.hex --tsv
is_line 'samples/refused-rule.hex --tsv' 1 "$(printf 'refused\tpoint\t13\t3\trule 1 condition 0\t13')"
run check linked samples/tree-linked.hex
has_words 'samples/tree-linked.hex' 0 out 'nodes: 5' observatory dome-1 'children 1 2' camera
run check paths samples/tree-paths.hex
has_words 'samples/tree-paths.hex' 0 out 'nodes: 6' 'site/dome-1/camera' site-2
run check rules samples/policy.hex
has_words 'samples/policy.hex' 0 out 'rule 0: Deny' 'rule 1: Permit' 'condition 2' bob registry 'must be present'
run check grants samples/grants.hex
has_words 'samples/grants.hex' 0 out 'line 0' 'line 2' alice close dome-2
run check linked samples/refused-link.hex
has_words 'samples/refused-link.hex' 1 out 17 'link 1' 'byte 14'

run check request samples/single.hex --tsv
is_line 'samples/single.hex --tsv' 0 accepted
run check request samples/observatory.hex --tsv
is_line 'samples/observatory.hex --tsv' 0 accepted
run check request samples/refused-tag.hex --tsv
is_line 'samples/refused-tag.hex --tsv' 1 "$(printf 'refused\trequest\t15\t2\telement 1\t7')"
run check request samples/refused-value.hex --tsv
is_line 'samples/refused-value.hex --tsv' 1 "$(printf 'refused\trequest\t13\t3\telement 0 attribute 0\t7')"

# what is printed for people: only the words that matter
run check request samples/observatory.hex
has_words 'samples/observatory.hex' 0 out subject-id action-id resource-id scope alice bob registry open close dome-1 Descendants verdict
run check request samples/single.hex
has_words 'samples/single.hex' 0 out resource
run check request samples/refused-tag.hex
has_words 'samples/refused-tag.hex' 1 out 15 'element 1' 'byte 7'
run check request samples/refused-value.hex
has_words 'samples/refused-value.hex' 1 out 13 'element 0' 'attribute 0' 'byte 7'

# ---- Hexadecimal text

good_text() { # WHAT TEXT: the text is that of the smallest request
    printf '%b' "$2" >"$room/text.hex"
    run check request "$room/text.hex" --tsv
    is_line "$1" 0 accepted
}

bad_text() { # WHAT LINE TEXT: an error that names the file and the line, and no result
    printf '%b' "$3" >"$room/text.hex"
    run check request "$room/text.hex" --tsv
    has_words "$1" 1 err "$room/text.hex" "line $2"
}

good_text 'pairs with no space between' '00010001'
good_text 'no line feed at the end' '00 01 00 01'
good_text 'lines, tabs, empty lines' '00\t01\n\n  00\n01\n'
good_text 'carriage returns' '00 01\r\n00 01\r\n'
good_text 'comments' '# first\n00 01# 00 GG #\n00 01 # last'
good_text 'a comment that is no text' '00 01 # \377\376\n00 01\n'
printf '00 01 02 01 01 00 01 02 aB Cd\n' >"$room/text.hex"
run check request "$room/text.hex" --tsv
is_line 'digits of both cases' 0 accepted
printf '# nothing but a comment\n' >"$room/text.hex"
run check request "$room/text.hex" --tsv
is_line 'a text of no bytes' 1 "$(printf 'refused\trequest\t11\t1\t-\t0')"

bad_text 'a letter that is no digit' 2 '00 01\n0G 01\n'
bad_text 'a digit without its pair, before a space' 1 '00 1 00 01\n'
bad_text 'a digit without its pair, at the end of a line' 3 '00\n01\n0\n0 01\n'
bad_text 'a digit without its pair, at the end of the text' 2 '00 01\n00 0'
bad_text 'a digit without its pair, before a comment' 1 '00 01 0# 0\n'
bad_text 'a sign between pairs' 4 '\n\n\n00, 01\n'
bad_text 'the usual prefix of a number' 1 '0x00 0x01\n'
bad_text 'a byte that is no character' 2 '00 01\n\377 01\n'
run check request samples/damaged.hex --tsv
has_words 'samples/damaged.hex --tsv' 1 err samples/damaged.hex 'line 6'
run check request samples/damaged.hex
has_words 'samples/damaged.hex' 1 err samples/damaged.hex 'line 6'

# only the end of the name makes a file hexadecimal text
printf '00 01 00 01' >"$room/hex"
run check request "$room/hex" --tsv
is_line 'text in a file whose name does not end in .hex' 1 "$(printf 'refused\trequest\t12\t1\t-\t0')"
printf '\000\001\000\001' >"$room/a.hex.bin"
run check request "$room/a.hex.bin" --tsv
is_line 'bytes in a file with .hex inside its name' 0 accepted

# ---- Words

run --help
has_words '--help' 0 out 'rows REQUEST' singles work step 'show SIZE' rewind verdict 'check KIND FILE' 'below NAME' 'decide REQUEST' request --linked --paths --rules --grants --children --tsv --help --version
run --version
has_words '--version' 0 out vamluyak
run chekc request samples/single.hex
has_words 'an unknown first word' 1 err chekc
run check requets samples/single.hex
has_words 'an unknown second word' 1 err requets
run check request samples/single.hex --csv
has_words 'an unknown last word' 1 err --csv
run check request samples/single.hex --tsv surplus
has_words 'a word too many' 1 err surplus
run check request samples/absent.hex
has_words 'a file that is not there' 1 err samples/absent.hex
run check request samples/absent.hex --tsv
has_words 'a file that is not there, --tsv' 1 err samples/absent.hex
run check request "$room/absent"
has_words 'a file of bytes that is not there' 1 err "$room/absent"
run check request samples
has_words 'a folder' 1 err samples
run check request
has_words 'no file given' 1 err ''

# options
misused() { # WHAT MESSAGE WORD..
    local what=$1 message=$2
    shift 2
    run "$@"
    has_words "$what" 1 err "$message"
}
misused 'two trees' 'a tree' below dome-1 --linked samples/tree-linked.hex --paths samples/tree-paths.hex
misused 'one tree twice' 'a tree' below dome-1 --linked samples/tree-linked.hex --linked samples/tree-linked.hex
misused 'two decision points' 'a decision point' decide samples/ask-alice.hex --rules samples/policy.hex --grants samples/grants.hex
misused 'below without a tree' '--linked' below dome-1
misused 'below without a name' 'name' below
misused 'below with a decision point' 'decision point' below dome-1 --linked samples/tree-linked.hex --grants samples/grants.hex
misused 'an option without its file' 'file' below dome-1 --linked
misused 'decide without a decision point' '--rules' decide samples/ask-alice.hex
misused 'decide without a request' 'request' decide
misused 'decide with a tree' 'tree' decide samples/ask-alice.hex --linked samples/tree-linked.hex
misused 'decide with a tree and a decision point' 'tree' decide samples/ask-alice.hex --grants samples/grants.hex --linked samples/tree-linked.hex
misused 'decide with --children' 'decide' decide samples/ask-alice.hex --grants samples/grants.hex --children
misused 'check with --children' 'check' check linked samples/tree-linked.hex --children
misused 'check with a tree' 'check' check request samples/single.hex --linked samples/tree-linked.hex
misused 'check of no kind' 'kind' check
misused 'an unknown option of below' '--deep' below dome-1 --linked samples/tree-linked.hex --deep
misused 'an unknown option of decide' '--fast' decide samples/ask-alice.hex --grants samples/grants.hex --fast
misused 'no words' 'command'
misused 'a tree that is not there' 'samples/absent.hex' below dome-1 --linked samples/absent.hex
misused 'a decision point that is not there' 'samples/absent.hex' decide samples/ask-alice.hex --rules samples/absent.hex
misused 'a request that is not there' 'samples/absent.hex' decide samples/absent.hex --grants samples/grants.hex
misused 'a damaged tree' 'line 6' below dome-1 --linked samples/damaged.hex
# options stand in any order
run below a --tsv --children --linked "$room/four.hex"
is_line 'options before the tree' 0 "$(printf '0\t0\t"a"\n1\t2\t"c"\n1\t3\t"d"')"

echo "tests/program.sh: $ran cases, $failed failed"
[ "$failed" -eq 0 ]
