#!/usr/bin/env bash
# The numbers that the calls of both headers return, for C: those of the two enumerations that say what calls return.
set -euo pipefail
sed -n '/^\/\* What the calls return/,/^};/s/^ *CATALOGUE_[A-Z_]* = \([0-9]*\).*/\1,/p' "$@"
