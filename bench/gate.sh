#!/bin/sh
# What the merge gate costs: for each crate the processor seconds of its proof, of its tests and of its edits in the last
# run that did them, and the ten largest modules of what `rt check` kept.
# usage: bench/gate.sh           prints what the last runs cost
#        bench/gate.sh run       runs the gate, .ci/run, and notes what it costs; ends with its status
#        bench/gate.sh watch     notes what an `rt ci` costs that runs already, until it ends
exec python3 "$(dirname "$0")/gate.py" "$@"
