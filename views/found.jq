# Findings: the entries of a report and the lines of groot-map that count, in one form. A finding has kind, level, `from` (`check`, or
# the word of groot-map), zone, place, `at` (where it stands: server, zone, file and line), file and line (the first of these),
# mend, and key, which tells it from others in every run. One of a report has its entry, query, type and walks besides, and the
# steps at which two walks part; one of a list has `columns`, those of its line by their names. `$given` has the lists of groot-map, each as text
# or absent; and perhaps `old`, an array of an older file of findings or report; `off`, kinds that are left out, with a space between;
# `outside`, a server's name that was made up; `about` and `version`, which say what was checked and by which groot; and `plain`, which is `yes` if no text needs to be looked
# through for what a terminal obeys.
include "names" {search: "./"};
include "entries" {search: "./"};
include "places" {search: "./"};
include "kinds" {search: "./"};
include "lists" {search: "./"};

def level: if .kind == "blackhole" and (rewrite.did == "dname" or (.place.owner | is_reverse)) then "note" else kinds[.kind].level end;
# What was found at locations: the first of them has its file and line.
def placed($records; $at): . + {at: $at, file: $at[0].file, line: $at[0].line}
  | if .kind == "delegation-differs" or .kind == "glue-differs" then both_sets($records) as $sets | . + {above: $sets[0], below: $sets[1]} else . end;

# The entries of a report as findings, but for where they stand.
def found_by_check: [entries[] | (if .place.name then .parted = parting else . end) | {kind, level: level, from: "check", zone: zone, place,
  mend: kinds[.kind].mend, key: key, entry, query, type, walks} + if .parted then {parted} else {} end];

# What the rows of the metadata say: the file of each; the first server of each zone; servers of which a row is reached; and the
# zones that servers hold.
def held($given): [$given.reached | rows] as $rows | {file: ($rows | map([.[1], .[4]]) | keyed),
  first: ($rows | reverse | map([.[3], .[2]]) | keyed), reached: ($rows | map(select(.[0] == "reached") | [.[2], true]) | keyed), holds: ($rows | map(["\(.[2])\t\(.[3])", true]) | keyed)};
# The server, zone and owner of the records at which lines of the list of servers are, under "file:line".
def named_at($given; $lines): ($lines | map(select(.from == "servers") | ["\(.columns.file):\(.columns.line)", true]) | keyed) as $wanted
  | if $wanted == {} then {} else [$given.records | rows | "\(.[4]):\(.[5])" as $at | select($wanted[$at]) | [$at, .[:3]]] | keyed end;

# The lines of a list that count, each with what its word says of it.
def counting($given; $from): lists[$from] as $list | $list.columns as $columns | ($columns | index("word")) as $at
  | $given[$from] | rows | if length == ($columns | length) then .
    else error("the list \($from) has a line of \(length) columns, not \($columns | length): groot-map and the views must be of one version") end
  | $list.words[.[$at]] as $how | select($how) | . as $row
  | (reduce range(0; $columns | length) as $number ({}; setpath([$columns[$number]]; $row[$number]))) as $line
  | select($how.of == null or $how.of == $line.type) | {from: $from, kind: $how.kind, columns: $line};
# A line with what it needs of rows and records: a file of a row, a server of a record, the first row of a zone, the zone of a target.
def completed($held; $named): .columns |= if .row then . + {file: $held.file[.row], of: ($held.first[.zone] // "the first row"), is_reached: ($held.reached[.server] // false)} elif .origins then
    ($named["\(.file):\(.line)"] // [.ns, ".", "."]) as $record | .server = $record[0] | .zone = $record[1] | .owner = $record[2]
  elif .asked then .server as $server | .held = (first(.target | upwards[] | select($held.holds["\($server)\t\(.)"])) // .target)
  elif .four then .ends = ([.four, .six] | unique | join(" and ")) else . end;
def found_by_map($given; $outside): held($given) as $held
  | [lists | to_entries[] | select(.value.words) | counting($given; .key) | select([.columns.server, .columns.ns] | index($outside) | not)] as $lines
  | named_at($given; $lines) as $named | [$lines[] | completed($held; $named) | .kind as $kind | .columns as $line | lists[.from].place as $columns
    | {kind, level: kinds[.kind].level, from, zone: $line.zone, place: ($columns | map({(.): $line[.]}) | add), mend: kinds[.kind].mend,
       key: ([$kind, $line.word, ($columns[] | $line[.])] | tojson), columns: $line}];

# Where a line says that it stands: without a column for it, on the first line of the row's file.
def stands: {server, zone} + if .file == "" or .file == null then {file: null, line: null} else {file, line: (.line // "1" | tonumber)} end;

# What findings tell, as texts: a delegation's fault at a cut with a name server, for which no query may reach that row; that a name
# server is dead; and that two servers answer differently for a zone. And whether one of groot-map's lists tells that again.
def tells: if .from == "check" then
    (.place | select(.ns) | "\(.cut)\t\(.ns)") as $there | "\(.kind)\t\($there)", "row\t\($there)", if .kind == "no-address" then "dead\t\(.place.ns)" else empty end
  else empty end,
  if .kind == "answers-differ" then .walks[][-1] | select(.zone) | "copy\t" + .server + "\t" + .zone
  elif .kind == "target-without-address" and .place.type == "NS" then "no-address\t\(.place.owner)\t\(.place.target)", "dead\t\(.place.target)"
  elif .kind == "dead-name-server" and .from == "delegations" then "dead\t\(.place.ns)" else empty end;
def is_told($told): if .from == "delegations" then $told["\(if .kind == "dead-name-server" then "no-address" else .kind end)\t\(.place.cut)\t\(.place.ns)"]
  elif .kind == "dead-name-server" then $told["dead\t\(.place.ns)"]
  elif .from == "reached" then $told["row\t\(.place.zone)\t\(.place.server)"]
  elif .from == "copies" then $told["copy\t\(.place.server)\t\(.place.zone)"] else false end;

# The keys of an older file of findings, or of an older report.
def old_keys: if . == null then null else .[0] | if .findings? then .findings | map(.key) else entries | map(key) end end;

# The findings of a report and of lists, in an object: `findings`; `known` and `gone`, how many of them the older file has, and how
# many it has besides, if there is one; `off`, how many of which kinds were left out; and what the report says of its size.
def made($given): . as $report | ($given.off // "" | split(" ") | map(select(. != ""))) as $off
  | found_by_check as $entries | found_by_map($given; $given.outside // "") as $lines
  | ([$entries[], $lines[] | tells | [., true]] | keyed) as $told
  | ($entries + ($lines | map(select(is_told($told) | not)))) as $all
  | by_place($given; $all | names_wanted) as $records | runs($given) as $runs
  | ($given.old | old_keys) as $old | ($old // [] | map([., true]) | keyed) as $is_old
  | ($all | if $off == [] then . else map(select(.kind | IN($off[]) | not)) end
    | map(placed($records; if .from == "check" then locations($records) else [.columns | stands | traced($runs)] end)
      | if $is_old[.key] then .known = true else . end)) as $findings
  | (if $old then $findings | map([.key, true]) | keyed else null end) as $is_now
  | {names: $report.names, classes: $report.classes, rewrites: $report.rewrites, about: $given.about, version: $given.version,
     off: ($off | map(. as $kind | {(.): ($all | map(select(.kind == $kind)) | length)}) | add // {}),
     known: (if $old then $findings | map(select(.known)) | length else $report.known end),
     gone: (if $old then $old | map(select($is_now[.] or (fromjson[0] | IN($off[])) | not)) | length else $report.gone end), findings: $findings};
# The findings of a file of them, or made of a report.
def findings($given): if type == "object" and (.findings | type) == "array" then . else made($given) end
  | (if $given.plain == "yes" then . else .findings |= all_shown end) | .about |= (values | shown) // null;
# How many findings there are of each kind and zone: kinds as they come, zones in the order of their names.
def counts: .findings | [to_entries[] | .value + {number: .key}] | group_by(.kind) | sort_by(.[0].number)
  | map(group_by(.zone | name_order)[] | {kind: .[0].kind, zone: .[0].zone, number: length});
