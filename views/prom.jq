# Metrics for the textfile collector of node_exporter, with --argjson status N and --argjson time SECONDS of the run:
# jq -rf views/prom.jq findings.json. Of a run without findings, jq -nrf views/prom.jq says its status and time alone.
include "found" {search: "./"};

def value: split("\\") | join("\\\\") | split("\"") | join("\\\"");
def metric($name; $help): "# HELP \($name) \($help)", "# TYPE \($name) gauge";
def one($name; $help; $number): $number | values | metric($name; $help), "\($name) \(.)";

(values | findings($ARGS.named) | one("groot_all_faults"; "Findings of the last run, known ones among them."; .findings | length),
  one("groot_new_faults"; "Findings of the last run that are new."; [.findings[] | select(.known | not)] | length),
  metric("groot_faults"; "Findings of the last run, by kind and zone."),
  (counts[] | "groot_faults{kind=\"\(.kind)\",zone=\"\(.zone | value)\"} \(.number)"),
  (.version | values | metric("groot_info"; "The version of groot that made the findings."), "groot_info{version=\"\(value)\"} 1")),
one("groot_status"; "Status of the last run, or -1 if it was ended from outside."; $ARGS.named.status),
one("groot_last_run_timestamp_seconds"; "When the last run ended."; $ARGS.named.time)
