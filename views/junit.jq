# Findings as JUnit XML, a failed test for each place at fault: jq -rf views/junit.jq report.json
include "found" {search: "./"};
include "cause" {search: "./"};
import "as_junit" as junit {search: "./"};

findings($ARGS.named) | causes as $causes | junit::lines($causes)
