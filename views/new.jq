# The report with those faults alone that an older one doesn't have; `known` says how many it leaves out, and `gone` how many
# the older one had besides: jq -cf views/new.jq --slurpfile old old.json report.json
include "names" {search: "./"};
include "entries" {search: "./"};

($ARGS.named.old // error("give the older report: --slurpfile old old.json") | .[0] | entries | map([key, true]) | keyed) as $old
| (entries | map([key, true]) | keyed) as $now | (.faults | length) as $all
| .faults |= map(select($old[key] | not))
| .known = $all - (.faults | length) | .gone = ($old | keys | map(select($now[.] | not)) | length)
