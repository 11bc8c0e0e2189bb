#!/usr/bin/env bash
# Rechunks by Dask: tasks that plan a share each.     dask.sh SOURCE TARGET ROOM
. "$(dirname "$0")/begin.sh"
status=0
"$PYTHON" "$tools/engines/dask_shares.py" "$shares" "$workers" "$tools/engines/share.sh" "$source" "$target" "$room" || status=$?
end "$status"
