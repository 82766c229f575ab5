#!/bin/sh
# One command from RTL to a figure: see figure.py, which this runs.
export PYTHONDONTWRITEBYTECODE=1
exec python3 "$(dirname "$(readlink -f "$0")")/figure.py" "$@"
