#!/usr/bin/env bash
# Rechunks by xargs: tasks that plan a share each.     xargs_shares.sh SOURCE TARGET ROOM
. "$(dirname "$0")/begin.sh"
status=0
seq 0 $((shares - 1)) | xargs -P "$workers" -I {} "$tools/engines/share.sh" "$source" "$target" "$room" {} "$shares" || status=$?
end "$status"
