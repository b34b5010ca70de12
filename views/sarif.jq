# Findings for tools of code review, in SARIF 2.1.0: jq -f views/sarif.jq --rawfile records records.tsv report.json >report.sarif
include "found" {search: "./"};
include "cause" {search: "./"};
import "as_sarif" as sarif {search: "./"};

findings($ARGS.named) | causes as $causes | sarif::log($causes)
