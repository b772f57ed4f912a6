#!/bin/sh
# Measures what bench/README.md shows, and writes it there with the commit and the load: all sections but those that prove
# something, or those whose names begin as is said.
# usage: bench/page.sh [--only BEGINNING]... [PROGRAM [FOLDER]]
exec python3 "$(dirname "$0")/page.py" "$@"
