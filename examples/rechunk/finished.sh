# shellcheck shell=bash
# Refuses a room in which a run ended well, if the source was changed since: what was done there is of the source as it was.
# The scripts source it with the words ROOM WORD, where WORD may be --again, and then call `mark_finished` at their end.
fingerprint() {
    "$PYTHON" "$tools/fingerprint.py" "$source"
}
mark=$(fingerprint)
finished=$1/finished
if [ "$2" = --again ]; then
    rm -rf "$1"/done.* "$1/intermediate" "$finished"
elif [ -n "$2" ]; then
    echo "$2 isn't known: the last word may be --again" >&2
    exit 1
elif [ -e "$finished" ] && [ "$(cat "$finished")" != "$mark" ]; then
    echo "in $1 a run ended well, and $source was changed since: give another folder, or --again" >&2
    exit 1
fi

# What the source was when the run began stands in the room. If it was changed since, some elements may be older than others.
mark_finished() {
    if [ "$(fingerprint)" != "$mark" ]; then
        echo "$source was changed while it was read: run the same again" >&2
        exit 1
    fi
    echo "$mark" > "$finished"
}
