#!/usr/bin/env bash
# Proves and tests everything, as the gate does: rt ci, then the tests of the program that it has built.
# The last line is that of rt ci, 'N passed, 0 failed', if all went well; otherwise the status is not 0.
set -euo pipefail
cd "$(dirname "$0")/.."
exec .ci/run
