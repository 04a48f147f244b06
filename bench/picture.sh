#!/bin/bash
# `picture.sh` makes docs/disk.png, the picture of the README: the first page that examples/site/site.sh makes of a sample
# disk, as Chromium shows it. Requires chromium. Run manually after the pages of site.sh have changed.
here=$(readlink -f "$(dirname "$0")/..")
scratch=$(mktemp -d)
trap 'rm -rf "$scratch"' EXIT
cd "$scratch" || exit
"$here/examples/disk.sh" kept.img && "$here/examples/site/site.sh" kept.img pages || exit
chromium --headless --no-sandbox --disable-gpu --hide-scrollbars --blink-settings=preferredColorScheme=1 --window-size=820,640 \
    --screenshot="$scratch/disk.png" "file://$scratch/pages/index.html" 2>/dev/null || exit
[ "$(stat -c %s disk.png)" -le 100000 ] || { echo "picture.sh: the picture has more than 100,000 bytes" >&2 && exit 1; }
cp disk.png "$here/docs/disk.png" && ls -l "$here/docs/disk.png"
