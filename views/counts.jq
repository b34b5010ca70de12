# A line for each kind and zone with its number of findings, separated by tabs: jq -rf views/counts.jq report.json
include "found" {search: "./"};

findings($ARGS.named) | counts[] | "\(.kind)\t\(.zone)\t\(.number)"
