# What is wrong and what mends it, for a terminal: jq -rf views/text.jq report.json
include "found" {search: "./"};
include "cause" {search: "./"};
import "as_text" as text {search: "./"};

findings($ARGS.named) | causes as $causes | text::lines($causes)
