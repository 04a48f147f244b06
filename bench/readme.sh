#!/bin/bash
# `readme.sh [PAGE ..]` runs the commands of the pages on the built program and compares their output. Without pages: the
# README and all of docs/ and examples/. PMACH names another program than ./pmach. Run manually; not part of the gate.
#
# A command is an indented line that begins with a dollar sign. The lines after it with the same indentation are its output,
# on both streams. The commands of a page run one after another in an empty directory, where examples/ and ./pmach are the
# repository's; those of a page of examples/conformance and the like run in a copy of its directory. A text between two lines
# of three backquotes is put into a file if the page mentions it before as "into a file `NAME`". In the README it is the
# output of the first run.
here=$(readlink -f "$(dirname "$0")/..")
scratch=$(mktemp -d)
trap 'rm -rf "$scratch"' EXIT
export PMACH=$(readlink -f "${PMACH:-$here/pmach}")
export PATH=$(dirname "$PMACH"):$PATH
"$PMACH" raw --limit 0 </dev/null >/dev/null 2>&1 # builds it if it is not built yet
passed=0
failed=0

# replay COMMAND: runs it, and compares its output with the file `wanted`
replay() {
    bash -c "$1" >got 2>&1 </dev/null
    if cmp -s got "$scratch/wanted"; then
        passed=$((passed + 1))
    else
        echo "FAILED: $page: $1"
        diff "$scratch/wanted" got
        failed=$((failed + 1))
    fi
}

# save_text NAME: puts the page's text between backquotes that follows the mention of the file into it
save_text() {
    awk -v name="into a file \`$1\`" '
        index($0, name) { mentioned = 1 }
        /^```/ { if (inside) exit; inside = mentioned; next }
        inside' "$here/$page" >"$1"
}

# replay_page: runs each command of the page in a directory of its own
replay_page() {
    local command='' line indent='' name
    mkdir "$scratch/room" && cd "$scratch/room" && ln -s "$PMACH" pmach && cp -R "$here/examples" examples && ln -s "$here/docs" "$here/crates" "$here/out" . || exit 1
    case $page in
    README.md)
        awk '/^```/ { inside = !inside; next } inside' "$here/$page" >"$scratch/wanted"
        replay "$(sed -n 's/^    \(echo .* | .\/pmach raw\)$/\1/p' "$here/$page" | head -n 1)"
        ;;
    docs/LIBRARY.md) "$PMACH" --library >"$scratch/build" 2>&1 ;;
    examples/*/*) cd "$(dirname "$page")" || exit 1 ;;
    esac
    for name in $(sed -n 's/.*into a file `\([^`]*\)`.*/\1/p' "$here/$page"); do save_text "$name"; done
    : >"$scratch/wanted"
    while IFS= read -r line; do
        if [[ $line =~ ^(\ +)\$\ (.*) ]]; then
            [ -z "$command" ] || replay "$command"
            indent=${BASH_REMATCH[1]} command=${BASH_REMATCH[2]}
            : >"$scratch/wanted"
        elif [ -n "$command" ] && [[ $line = "$indent"* ]]; then
            printf '%s\n' "${line#"$indent"}" >>"$scratch/wanted"
        elif [ -n "$command" ]; then
            replay "$command"
            command=
        fi
    done < <(cat "$here/$page" && echo)
    cd "$here" && rm -rf "$scratch/room"
}

cd "$here" || exit 1
[ $# != 0 ] || set -- README.md docs/*.md $(find examples -name '*.md' | sort)
for page; do
    replay_page
done
echo "$passed passed, $failed failed"
[ "$failed" = 0 ]
