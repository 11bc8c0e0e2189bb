#!/usr/bin/env bash
# The task of an engine: plans the share T of N, and does its lines. What a run before did of them is passed over.
#
#     share.sh SOURCE TARGET ROOM T N
set -euo pipefail
tools=$(realpath "$(dirname "${BASH_SOURCE[0]}")/..")
read -ra region <<< "$REGION"
read -ra words <<< "$WORDS"
"$PYTHON" "$tools/document_of.py" "$1" "$2" "${region[@]}" --share "$4" "$5" | "$CHUNKPLAN" |
    "$PYTHON" "$tools/copy_chunks.py" "$1" "$2" "${region[@]}" "${words[@]}" --done "$3/done.$4" --resume "$3/done.$4" > /dev/null
