#!/bin/sh
# Makes web pages of a disk image; open FOLDER/index.html in a browser: examples/site/site.sh IMAGE FOLDER
#
#     examples/site/site.sh IMAGE FOLDER --run NAME [--input FILE] [--limit N]    adds a page with a run of this program
#     examples/site/site.sh IMAGE FILE.html    makes one new file instead: the page of ./pmach --page, which opens on this disk
#
# FOLDER is new, or was made by this script. Requires python3. The variable PMACH can name another program than ./pmach.
. "$(dirname "$(readlink -f "$0")")/../words.sh"
here=$(dirname "$(readlink -f "$0")")
case $#,${2-} in 2,?*.html) exec python3 "$here/one.py" "$@" ;; esac
exec python3 "$here/site.py" "$@"
