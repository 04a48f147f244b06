# shellcheck shell=sh
# For the scripts of this folder: -h and --help print the comment at the head of the script.
case ${1-} in
-h | --help)
    awk 'NR > 1 && !/^#/ { exit } NR > 1 { sub(/^# ?/, ""); print }' "$0"
    exit 0
    ;;
esac
