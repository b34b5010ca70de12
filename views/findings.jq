# The findings of a report and of the lists of groot-map, which all other views take in place of the report:
# jq -cf views/findings.jq --rawfile records records.tsv --rawfile targets targets.tsv report.json >findings.json
# With --slurpfile old OLD, an older file of findings or report, those are marked that it has; --arg off "KIND KIND" leaves kinds out.
include "found" {search: "./"};

findings($ARGS.named)
