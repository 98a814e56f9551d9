#!/usr/bin/env bash
# Makes the pictures in this folder: a simulated flight of each sample plan, drawn over the plan.
set -euo pipefail
cd "$(dirname "$0")/.."
for plan in lines fillets dubins strips; do
    example/flight.sh "samples/$plan.wpl" "docs/$plan.svg"
done
