#!/bin/sh
# Has promtool (Debian's package prometheus) check docs/alerts.yml, fire each of its rules for what is wrong and none for what is well, and
# read each expression of docs/dashboard.json.
set -eu
bench=$(cd "$(dirname "$0")" && pwd)
command -v promtool > /dev/null || { echo "promtool is not installed"; exit 1; }
scratch=$(mktemp -d)
trap 'rm -rf "$scratch"' EXIT
cp "$bench/../docs/alerts.yml" "$bench/alerts_test.yml" "$scratch"
promtool check rules "$scratch/alerts.yml"
promtool test rules "$scratch/alerts_test.yml"
python3 - "$bench/../docs/dashboard.json" > "$scratch/dashboard.yml" <<'RULES'
import json
import sys

print("groups:\n  - name: dashboard\n    rules:")
for panel in json.load(open(sys.argv[1]))["panels"]:
    for target in panel["targets"]:
        print(f"      - record: panel_{panel['id']}_{target['refId']}\n        expr: {json.dumps(target['expr'])}")
RULES
promtool check rules "$scratch/dashboard.yml"
