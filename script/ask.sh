#!/bin/sh
# `ask.sh files ARG..`, on a terminal: asks before a verb deletes the files of an image. Status 1: the answer was no.
. "$(dirname "$0")/words.sh"
case $verb in
    new | zero) [ -s "$path" ] || exit 0 ;;
    *) exit 0 ;;
esac
shown=$(printf %s "$path" | tr '\000-\037\177' '?' | LC_ALL=C sed 's/\xc2[\x80-\x9f]/?/g')
printf 'pmach: %s exists, and %s deletes what it contains. Continue? [y/N] ' "$shown" "$verb" >&2
read -r answer || answer=''
case $answer in
    [yY]*) exit 0 ;;
esac
exit 1
