#!/usr/bin/env bash
# Rechunks by GNU parallel: tasks that plan a share each, with a log of them. A second run begins all, and each passes over what was done.
#
#     parallel_shares.sh SOURCE TARGET ROOM
. "$(dirname "$0")/begin.sh"
status=0
seq 0 $((shares - 1)) | parallel -q -j "$workers" --joblog "$room/joblog" \
    "$tools/engines/share.sh" "$source" "$target" "$room" {} "$shares" || status=$?
end "$status"
