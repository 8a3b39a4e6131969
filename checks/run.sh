#!/bin/sh
# The checks of what stands around the proofs, over the programs that `rt ci` leaves in crates/bridge_cli/out: one that
# LLVM built, and one by Rattle's own compiler where that can build it. Ends with a status other than 0 where one fails.
cd "$(dirname "$0")/.." || exit
program=crates/bridge_cli/out/bridge_cli
status=0
checks/program.sh "$program" || status=1
if [ -e "$program.by-rattle" ]; then
    checks/program.sh "$program.by-rattle" || status=1
fi
checks/words.sh "$program" || status=1
checks/faults.sh "$program" || status=1
checks/replay.sh "$program" || status=1
checks/examples.sh "$PWD/$program" || status=1
checks/documents.sh "$PWD/$program" || status=1
python3 -B checks/manual.py "$PWD/$program" || status=1
python3 -B checks/order.py || status=1
python3 -B checks/believed.py || status=1
python3 -B checks/claims.py || status=1
exit "$status"
