#!/bin/sh
# Tells where each wrong body is refused: at a goal that stays open, or for all that is seen a proof whose form no longer fits.
#   tests/refusals.sh CRATE..               tries them first, by tests/wrong.py or rt must-fail (RT names another command in the place of rt)
#   tests/refusals.sh --log FILE [CRATE..]  reads what these or `rt ci` wrote
#   tests/refusals.sh --controls CRATE[/NAME]..   tries controls alone
exec python3 "$(dirname "$0")/refusals.py" "$@"
