#!/usr/bin/env bash
# The audit: tries every wrong body of both sets, of the named crates or of all: audit.sh [CRATE..]
#
# It checks the crates first, as `rt check` does, and keeps that in their folders. One line for each crate says how many
# wrong bodies were tried, refused, not refused and bad, and what it cost. The last line is `N passed, M failed`.
set -euo pipefail
cd "$(dirname "$0")"
exec .ci/audit "$@"
