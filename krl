#!/usr/bin/env bash
# Runs this repository's program built/krl, which is proved and built first where that is needed.
set -u

top=$(dirname -- "$(readlink -f -- "$0")")
. "$top/packaging/launch.sh"
launch krl krl "$@"
