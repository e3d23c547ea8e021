#!/bin/bash
# The outputs for other programs, read by other programs: each JSON output by `jq`, each SARIF log by a validator of JSON schemas.
#
#     bench/outputs.sh [PROGRAM]
#
# PROGRAM is `./tmpl` if left out. It needs `jq` and Python with `jsonschema` (Debian: jq, python3-jsonschema). The schema below has the
# properties that SARIF 2.1.0 (OASIS, 2020) requires of the objects that are written, with their types and the ranges of their values. Each output has to be one
# line that `jq` prints again with the same bytes, keys sorted, and has to say what the text of the same run says. Status 0 only then.
set -u
top=$(cd "$(dirname "$0")/.." && pwd)
program=${1:-$top/tmpl}
room=$(mktemp -d)
trap 'rm -rf "$room"' EXIT
command -v jq >/dev/null || { echo "outputs: no jq" >&2; exit 9; }
python3 -c 'import jsonschema' 2>/dev/null || { echo "outputs: no jsonschema" >&2; exit 9; }
wrong=0
tried=0

# Says what was wrong with a run.
judge() {
    tried=$((tried + 1))
    [ "$1" = ok ] || { wrong=$((wrong + 1)); echo "WRONG: $2" >&2; }
}

cat >"$room/schema.json" <<'END'
{"$schema": "http://json-schema.org/draft-07/schema#", "type": "object", "required": ["version", "runs"], "properties": {
  "$schema": {"type": "string", "format": "uri"}, "version": {"enum": ["2.1.0"]},
  "runs": {"type": "array", "minItems": 0, "items": {"type": "object", "required": ["tool"], "properties": {
    "tool": {"type": "object", "required": ["driver"], "properties": {"driver": {"type": "object", "required": ["name"], "properties": {
      "name": {"type": "string"}, "rules": {"type": "array", "uniqueItems": true,
      "items": {"type": "object", "required": ["id"], "properties": {"id": {"type": "string"}}, "additionalProperties": false}}},
      "additionalProperties": false}}, "additionalProperties": false},
    "results": {"type": "array", "items": {"type": "object", "required": ["message"], "properties": {
      "ruleId": {"type": "string"}, "level": {"enum": ["none", "note", "warning", "error"]},
      "message": {"type": "object", "required": ["text"], "properties": {"text": {"type": "string"}}, "additionalProperties": false},
      "locations": {"type": "array", "uniqueItems": true, "items": {"type": "object", "properties": {"physicalLocation": {"type": "object",
        "required": ["artifactLocation"], "properties": {
          "artifactLocation": {"type": "object", "properties": {"uri": {"type": "string", "pattern": "^([A-Za-z0-9._~/-]|%[0-9A-F]{2})*$"}},
          "additionalProperties": false},
          "region": {"type": "object", "required": ["startLine"], "properties": {"startLine": {"type": "integer", "minimum": 1},
          "startColumn": {"type": "integer", "minimum": 1}}, "additionalProperties": false}}, "additionalProperties": false}},
        "additionalProperties": false}}}, "additionalProperties": false}}}, "additionalProperties": false}}},
  "additionalProperties": false}
END
cat >"$room/valid.py" <<'END'
import json, sys, jsonschema
schema, log = (json.load(open(name, encoding="utf-8")) for name in sys.argv[1:3])
jsonschema.Draft7Validator(schema).validate(log)
for run in log["runs"]:
    rules = [rule["id"] for rule in run["tool"]["driver"]["rules"]]
    assert all(result["ruleId"] in rules for result in run["results"])
print(sum(len(run["results"]) for run in log["runs"]))
END

# What the words print in a format, and with which status.
output() {
    "$program" "${@:2}" --format "$1" >"$room/$1" 2>"$room/message"
    echo $? >"$room/$1.status"
}

# Whether JSON is one line that jq prints again, and whether its status is that of the text.
json() {
    output text "$@"
    output json "$@"
    jq -cS . "$room/json" >"$room/again" && cmp -s "$room/json" "$room/again" && cmp -s "$room/text.status" "$room/json.status"
    judge "$([ $? = 0 ] && echo ok)" "--format json: $*"
}

# Whether the JSON of a report tells the lines of the text.
report() {
    json "$@"
    jq -r '(["variables"] + .variables | join(" ")), (.rows as $rows | .points[] | "point \(.point): \(.kind)\(if .name then " " + .name else "" end)\(
        if .line then " at line \(.line)" else "" end)", (if .reachable then range(.bounds | length) as $i | "  \($rows[$i]) <= \(.bounds[$i])"
        else "  unreachable" end)), (if .certificate then "certificate: \(.certificate)" else "improvements: \(.improvements)" end)' \
        "$room/json" >"$room/lines" && cmp -s "$room/text" "$room/lines"
    judge "$([ $? = 0 ] && echo ok)" "the lines of the report: $*"
}

# Whether a SARIF log is valid, and has a result for each open check of the text.
sarif() {
    json verify "$@"
    output sarif verify "$@"
    jq -cS . "$room/sarif" >"$room/again" && cmp -s "$room/sarif" "$room/again" \
        && [ "$(python3 "$room/valid.py" "$room/schema.json" "$room/sarif")" = "$(grep -c '^check .*: open' "$room/text")" ] \
        && [ "$(jq -r '.runs[0].results[] | "\(.locations[0].physicalLocation.region | "\(.startLine):\(.startColumn)"): \(.message.text)"' "$room/sarif")" \
            = "$(sed -n 's/^check [0-9]* at \(.*: open.*\)$/\1/p' "$room/text")" ]
    judge "$([ $? = 0 ] && echo ok)" "--format sarif: $*"
}

cd "$top" || exit 9
for file in examples/*.c; do
    for domain in intervals zones octagons; do
        report solve "$file" --domain "$domain"
        sarif "$file" --domain "$domain"
    done
    "$program" certify "$file" >"$room/cert" 2>/dev/null && report check "$file" "$room/cert"
done
printf 'int main() { int x = 0; while (0 == 0) x = x + 1;\n assert(x < 0); }' >"$room/it's a \"100%\" ü.c"
sarif "$room/it's a \"100%\" ü.c"
report solve "$room/it's a \"100%\" ü.c"
printf 'vars x, y; points s, a; edge s a { x = 1; }' >"$room/system"
report transitions "$room/system" --domain zones
printf 'left = max(0, right);\nright = max(1:2*left + 1);' >"$room/equations"
json equations "$room/equations"
printf 'end: x == 100; end: x <= 99;' >"$room/claims"
printf 'int main() { int x = 0; while (x < 100) x = x + 1; end: }' >"$room/count"
json prove "$room/count" "$room/claims"
echo "$tried tried, $wrong wrong"
[ "$wrong" = 0 ]
