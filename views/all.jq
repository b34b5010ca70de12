# The findings of a report, and what the views text, html, sarif and junit make of them, all in one run: for each a line of a
# record separator and its name, and then its own lines, none of which has that character: jq -rcf views/all.jq report.json
include "found" {search: "./"};
include "cause" {search: "./"};
import "as_text" as text {search: "./"};
import "as_page" as page {search: "./"};
import "as_sarif" as sarif {search: "./"};
import "as_junit" as junit {search: "./"};

def part($name; lines): "\u001e\($name)", lines;
findings($ARGS.named) | causes as $causes
  | part("new"; [.findings[] | select(.known | not)] | length), part("findings"; .), part("text"; text::lines($causes)), part("html"; page::lines($causes)),
    part("sarif"; sarif::log($causes)), part("junit"; junit::lines($causes))
