# shellcheck shell=bash
# What all engines begin and end with; they source it, with the words SOURCE TARGET ROOM [--again].
#
# ROOM is a folder for the document and for what was done, which a second run goes on from. If a run there ended well and
# SOURCE was changed since, it is refused; with --again all lines are done again. The environment may say
# which CHUNKPLAN and which PYTHON to run, how many WORKERS at a time (4), into how many SHARES the plan is cut (16),
# which REGION is copied, as "--subset 2,0 3,4 --at 1,1"; without one it is a rechunking of the whole array. As WORDS it may
# give more words to `copy_chunks.py`, such as --missing-is-an-error.
set -euo pipefail
source=$(realpath "$1") target=$(realpath "$2")
mkdir -p "$3"
room=$(realpath "$3")
tools=$(realpath "$(dirname "${BASH_SOURCE[0]}")/..")
export CHUNKPLAN=${CHUNKPLAN:-chunkplan} PYTHON=${PYTHON:-python3} REGION=${REGION:-} WORDS=${WORDS:-}
read -ra region <<< "$REGION"
workers=${WORKERS:-4} shares=${SHARES:-16}

# What was done of one plan is nothing done of another.
"$PYTHON" "$tools/document_of.py" "$source" "$target" "${region[@]}" > "$room/document.new"
echo "$shares $source $target" >> "$room/document.new"
if [ -e "$room/document" ] && ! cmp -s "$room/document" "$room/document.new"; then
    echo "$room has another rechunking, or one in another number of shares" >&2
    exit 1
fi
mv "$room/document.new" "$room/document"
. "$tools/finished.sh" "$room" "${4:-}"

# Ends with the status 0 where the engine did, and each chunk was done.
end() {
    "$PYTHON" "$tools/check_done.py" "$target" "$room"/done.* "${region[@]}"
    if [ "$1" -ne 0 ]; then
        echo "the engine ended with the status $1" >&2
        exit 1
    fi
    mark_finished
    rm -rf "$target/.unfinished"
}
