#!/usr/bin/env bash
# The name of merge_archive.py up to version 1.0.0, which scripts of others may call; --help is that of merge_archive.py.
exec python3 -I "$(dirname -- "$(readlink -f -- "${BASH_SOURCE[0]}")")/merge_archive.py" "$@"
