#!/bin/bash
# nested.sh PROCEDURES LINKS..: prints the text of a program of nested procedures, each called by the one around it. The
# innermost procedure loops over variables that are LINKS static links up.
count=$1
shift
echo ".SEG 1 NESTED"
for ((p = 1; p <= count; p++)); do
    echo ".PROC $p $((p - 1)) 0 2"
    if [ "$p" -lt "$count" ]; then
        echo " CLP $((p + 1))"
    else
        echo "again: LDL 1"
        for links in "$@"; do printf ' LOD %d, 1\n SLDC 1\n ADI\n STR %d, 1\n' "$links" "$links"; done
        printf ' STL 1\n UJP ^0\n'
    fi
    echo ".EXIT"
    if [ "$p" = 1 ]; then echo " RBP 0"; else echo " RNP 0"; fi
    if [ "$p" = "$count" ]; then echo ".JUMP again"; fi
    echo ".END"
done
