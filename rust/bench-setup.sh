#!/usr/bin/env bash
# Sets up the benchmark: installs z3 from Debian's package, unless it is there. Not needed for tests.
set -euo pipefail
if command -v z3 > /dev/null; then
    z3 --version
    exit 0
fi
if [ "$(id -u)" -eq 0 ]; then as_root=(); else as_root=(sudo); fi
"${as_root[@]}" apt-get install --yes --no-install-recommends z3
z3 --version
