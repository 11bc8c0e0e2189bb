#!/usr/bin/env bash
# Copies by tasks that hold at most N elements each, in one stage or in two, whichever costs less.
#
#     two_stages.sh SOURCE TARGET ROOM N [--again]
#
# ROOM is a folder for the intermediate array and for what was done, which a second run goes on from. If a run there ended well
# and SOURCE was changed since, it is refused; with --again all lines are done again. The intermediate array is removed at the
# end. The environment may say which CHUNKPLAN and which PYTHON to run, which REGION is copied, as "--subset 2,0 3,4 --at 1,1",
# and as WORDS more words for the worker that reads SOURCE, such as --missing-is-an-error.
set -euo pipefail
source=$(realpath "$1") target=$(realpath "$2") most=$4
mkdir -p "$3"
room=$(realpath "$3")
tools=$(realpath "$(dirname "${BASH_SOURCE[0]}")")
intermediate=$room/intermediate
export CHUNKPLAN=${CHUNKPLAN:-chunkplan} PYTHON=${PYTHON:-python3}
read -ra region <<< "${REGION:-}"
read -ra words <<< "${WORDS:-}"

# How many chunks a task takes, by the counts of the stages; the first stage has the number 0, the last one -1.
task_chunks() {
    "$PYTHON" -c 'import json, sys; print(*json.load(open(sys.argv[1]))["stages"][int(sys.argv[2])]["task_chunks"], sep=",")' "$room/counts" "$1"
}

# Does a stage, from one array to another, with more words for the worker, and sees that each task was done. `part` is the
# region of the stage.
stage() {
    local done=$room/done.$1 each
    each=$(task_chunks "$(($1 - 1))")
    "$PYTHON" "$tools/document_of.py" "$source" "$target" "${region[@]}" --max-elements "$most" --stage "$1" | "$CHUNKPLAN" |
        "$PYTHON" "$tools/copy_chunks.py" "$2" "$3" "${part[@]}" "${@:4}" --task-chunks "$each" --cache 0 --done "$done" --resume "$done" > /dev/null
    "$PYTHON" "$tools/check_done.py" "$3" "$done" "${part[@]}" --task-chunks "$each"
}

# What was done of one copy is nothing done of another.
"$PYTHON" "$tools/document_of.py" "$source" "$target" "${region[@]}" --max-elements "$most" > "$room/document.new"
echo "$source $target" >> "$room/document.new"
if [ -e "$room/document" ] && ! cmp -s "$room/document" "$room/document.new"; then
    echo "$room has another copy, or one of another number of elements" >&2
    exit 1
fi
mv "$room/document.new" "$room/document"
. "$tools/finished.sh" "$room" "${5:-}"

# If a run ended well and nothing changed TARGET since, the stages aren't done again: the intermediate array was removed.
is_left() {
    local done=("$room"/done.*)
    [ -e "$finished" ] && "$PYTHON" "$tools/fingerprint.py" "$target" | cmp -s - "$room/left" &&
        "$PYTHON" "$tools/check_done.py" "$target" "${done[-1]}" "${region[@]}" --task-chunks "$(task_chunks -1)" 2> /dev/null
}
if ! is_left; then
    "$PYTHON" "$tools/make_intermediate.py" "$source" "$target" "$intermediate" "${region[@]}" --max-elements "$most" | tee "$room/counts"
    part=("${region[@]}")
    if [ -e "$intermediate/zarr.json" ]; then
        part=("${region[@]:0:3}")
        stage 1 "$source" "$intermediate" "${words[@]}"
        [ "${#region[@]}" -eq 0 ] || part=(--subset "${region[1]//[0-9]/0}" "${region[@]:2}")
        stage 2 "$intermediate" "$target" --missing-is-an-error
    else
        stage 1 "$source" "$target" "${words[@]}"
    fi
fi
mark_finished
"$PYTHON" "$tools/fingerprint.py" "$target" > "$room/left"
rm -rf "$intermediate" "$target/.unfinished"
