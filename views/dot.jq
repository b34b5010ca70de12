# Walks as a graph for Graphviz: jq -rf views/dot.jq report.json | dot -Tsvg >report.svg
# One entry, counted from 1 as groot recheck counts them, with --argjson entry 3; those of a zone with --arg zone example. Of entries that differ in
# their type alone the first is drawn, unless one is asked for.
include "names" {search: "./"};
include "entries" {search: "./"};

def red: if . then ", color=red, fontcolor=red" else "" end;
# Nodes are known by what stands in them, a text for each line.
def id: join(" ") | quoted;
def node($shape; $at_fault): "  \(id) [label=\"\(map(quoted[1:-1]) | join("\\n"))\", shape=\($shape)\($at_fault | red)];";
def edge($from; $to; $text; $at_fault): "  \($from | id) -> \($to | id) [label=\($text | quoted)\($at_fault | red)];";
# The box of a step: its server, and the name that is looked for if that was rewritten.
def box($name): [.who, if .name == $name then empty else .name end];
# The statements of a walk in words: the query, the boxes of its steps, and what it ends in.
def drawn($name; $type): . as $steps | last as $final | ["\($name) \($type)"] as $query
  | ($query | node("plaintext"; false)), edge($query; .[0] | box($name); ""; false),
    (.[] | box($name) | node("box"; false)),
    (range(0; length - 1) | $steps[.] as $step | edge($step | box($name); $steps[. + 1] | box($name); $step.says; $step.at_fault)),
    ([$final.who, $final.says] | node("note"; $final.at_fault)),
    edge($final | box($name); [$final.who, $final.says]; ""; $final.at_fault);

$ARGS.named as $asked | entries
| if $asked.entry != null then map(select("\(.entry)" == "\($asked.entry)")) else unique_by([.kind, (.place | del(.type))]) end
| map(select($asked.zone == null or zone == $asked.zone))
| if . == [] and ($asked.entry // $asked.zone) != null then error("the report has no such entry") else . end
| "digraph groot {", "  rankdir=LR;", ([.[] | .query as $name | .type as $type | told[] | drawn($name; $type)] | unique[]), "}"
