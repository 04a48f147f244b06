# shellcheck shell=sh disable=SC2034 # the variables are for the script that reads this file
# Read this file after `set -- files ARG..`: it sets `path` (of the image), `form`, `verb`, and `first` and `second`, the
# arguments after the verb.
path='' form='' verb='' first='' second='' third='' option=''
for word; do
    case $option,$word in
        --image,*) path=$word option='' ;;
        --form,*) form=$word option='' ;;
        --slot,* | --matching,* | --ends,* | --only,* | --block,* | --blocks,* | --output,* | -o,*) option='' ;;
        ,--image | ,--form | ,--slot | ,--matching | ,--ends | ,--only | ,--block | ,--blocks | ,--output | ,-o) option=$word ;;
        ,--image=*) path=${word#--image=} ;;
        ,--form=*) form=${word#--form=} ;;
        ,--) option=- ;;
        ,files | ,-?*) ;;
        *)
            if [ -z "$verb" ]; then
                verb=$word
            elif [ -z "$first" ]; then
                first=$word
            elif [ -z "$second" ]; then
                second=$word
            else
                third=$word
            fi
            ;;
    esac
done
# In `files IMAGE VERB ..`, the path of the image precedes the verb.
if [ -z "$path" ]; then
    case $verb in
        list | get | put | gettext | puttext | export | import | remove | change | kind | copy | krunch | date | zero | new | \
            duplicate | single | repair | check | salvage | diff | undelete) ;;
        *) path=$verb verb=$first first=$second second=$third ;;
    esac
fi
