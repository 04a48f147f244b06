#!/bin/sh
# Runs a program, and then the programs that follow it by CHAINSTUFF: examples/chain.sh IMAGE NAME [OPTION..]
# The options are those of `pmach run`, for example --text or --system PATH; --d12, --save and --form cannot be used.
# Each program runs with --save-all, and with a volume CHAIN on unit 12, through which the unit CHAINSTUFF of units/
# leaves the title of the next program and its string. All programs read the same standard input. A title means the file
# with .CODE appended to it, or without it if there is no such file, or if the title ends with a full stop. The programs
# must be on IMAGE: a volume in the title is accepted if it is *, #4 or the name of the volume. Status 2: no such
# program. Status 3: the title has another volume. Otherwise the status is that of the last run. The variable PMACH can
# name another program than ../pmach.
. "$(dirname "$(readlink -f "$0")")/words.sh"
set -e
[ $# -ge 2 ] || {
    echo "usage: chain.sh IMAGE NAME [OPTION..]" >&2
    exit 1
}
pmach=${PMACH:-$(dirname "$(readlink -f "$0")")/../pmach}
image=$1 name=$2
shift 2
case $image in -*) image=./$image ;; esac # a path, not an option
scratch=$(mktemp -d)
trap 'rm -rf "$scratch"' EXIT
trap 'exit 129' HUP
trap 'exit 130' INT
trap 'exit 143' TERM

fail() { # TEXT STATUS
    printf 'chain.sh: %s\n' "$1" >&2
    exit "$2"
}

chain() {
    "$pmach" files --image "$scratch/chain" "$@"
}

# listed NAME: whether the volume has a file of this name
listed() {
    NAME=$1 awk '
        NR > 1 && substr($0, 16, 1) == " " {
            file = substr($0, 1, 15)
            sub(/ +$/, "", file)
            if (toupper(file) == ENVIRON["NAME"]) found = 1
        }
        END { exit !found }' "$scratch/list"
}

chain new CHAIN 7 >"$scratch/why"
head -c 512 /dev/zero >"$scratch/block"
while
    chain put CHAIN.SH.DATA data <"$scratch/block"
    status=0
    "$pmach" run --d4 "$image" --d12 "$scratch/chain" --save-all "$@" -- "$name" || status=$?
    [ $status = 0 ]
do
    chain get CHAIN.SH.DATA >"$scratch/left" </dev/null
    chain remove CHAIN.SH.DATA </dev/null
    length=$(od -An -v -t u1 -N 1 "$scratch/left" | tr -d ' ')
    title=$(tail -c +2 "$scratch/left" | head -c "$length" | tr '[:lower:]' '[:upper:]' | tr -d '\000-\040')
    [ -n "$title" ] || exit 0
    # the string stays, the title does not
    { head -c 128 /dev/zero && tail -c +129 "$scratch/left"; } >"$scratch/block"
    "$pmach" files --image "$image" list >"$scratch/list" </dev/null
    volume=$(sed -n '1s/:.*//p' "$scratch/list")
    case $title in
        *:*)
            case ${title%%:*} in
                '' | '*' | '#4' | "$volume") title=${title#*:} ;;
                *) fail "$name is followed by $title, which is on another volume than $image" 3 ;;
            esac
            ;;
        '*'*) title=${title#?} ;;
    esac
    if listed "$title.CODE"; then
        title=$title.CODE
    else
        title=${title%.}
        listed "$title" || fail "$name is followed by $title, but $image has no file $title.CODE or $title" 2
    fi
    name=$title
done
exit $status
