# Findings as one page for a browser: jq -rf views/html.jq report.json >report.html
include "found" {search: "./"};
include "cause" {search: "./"};
import "as_page" as page {search: "./"};

findings($ARGS.named) | causes as $causes | page::lines($causes)
