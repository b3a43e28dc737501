#!/usr/bin/env bash
# Cleans the noise file given. The program is built first, which proves it, where it is not built yet or has changed.
set -euo pipefail
file=$(realpath "$1")
cd "$(dirname "$0")/../crates/clean"
rt run < "$file"
