# Findings for tools of code review, in SARIF 2.1.0.
include "names" {search: "./"};
include "entries" {search: "./"};
include "kinds" {search: "./"};
include "cause" {search: "./"};

# The file of a record as a URI.
def uri: file_name | (if startswith("/") then "file://" else "" end) + (split("/") | map(@uri) | joined("/"));
def location: {logicalLocations: [{name: .server, fullyQualifiedName: (.server + " " + .zone)}]}
  + if .file then {physicalLocation: {artifactLocation: {uri: (.file | uri)}, region: {startLine: .line}}} else {} end;
def rule: . as $kind | kinds[$kind] | "\(.what); to mend it, \(.mend)" as $all
  | {id: $kind, shortDescription: {text: .what}, fullDescription: {text: $all}, help: {text: $all}, defaultConfiguration: {level: .level}};
def result($cause; $numbers): .kind as $kind | {
  ruleId: $kind, ruleIndex: $numbers[$kind], level: .level,
  message: {text: (.subject + .details + ": " + $cause.headline + "\n" + (.first | asked) + ([.told[] | "\n" + joined(" -> ")] | add // ""))},
  locations: [.at[0] | location],
  relatedLocations: (.at[1:] | map(location + {message: {text: .server}})),
  partialFingerprints: {"fault/v1": .key}};

# Code scanning shows at most so many results of a log.
def most: 5000;
# The results that a log has: if there are too many, errors come before warnings, and these before notes.
def chosen: if length > most then sort_by(severity)[:most] else . end;
# The log of findings with their causes; it says by which groot they were made, if that is known.
def log($causes): .version as $version | (kinds | keys) as $kinds | ($kinds | to_entries | map([.value, .key]) | keyed) as $numbers
  | ([$causes[] | . as $cause | .places[] | result($cause; $numbers)] | chosen) as $results | {
  "$schema": "https://docs.oasis-open.org/sarif/sarif/v2.1.0/errata01/os/schemas/sarif-schema-2.1.0.json", version: "2.1.0",
  runs: [{tool: {driver: ({name: "groot", rules: ($kinds | map(rule))} + if $version then {version: $version} else {} end)}, results: $results}]};
