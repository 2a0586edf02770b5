#!/usr/bin/env bash
# Counts what a reader must believe (tools/believed.py), and compares with the table of docs/ARCHITECTURE.md.
# Last line: N passed, M failed.
set -u
cd "$(dirname "$(readlink -f "$0")")/.." || exit 2
command -v python3 >/dev/null || { apt-get update && apt-get install -y python3; } >/dev/null 2>&1
if python3 tools/believed.py --check; then
    echo "1 passed, 0 failed"
else
    echo "0 passed, 1 failed"
    exit 1
fi
