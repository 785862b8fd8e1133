#!/bin/sh
# Makes evening.notice from evening.txt again, and the input of crates/preview: the same with an arrow, which is ambiguous.
cd "$(dirname "$0")" || exit 1
pack() {
    python3 pack.py --size 48 13 --area 1 1 43 10 --border rounded --padding 2 1 0 0 \
        --top ' Evening notice ' --bottom ' Lobby desk: 100 ' --title-alignment centre --digits \
        --shadow symbol --shadow-offset 2 1 --frame-style 4 --title-style '3 bold' --shadow-style 8 --digit-style '1 bold' "$@"
}
pack evening.txt -o evening.notice
sed 's/1 to 4/1→4/' evening.txt | pack --ambiguous -o ../../crates/preview/stdin
