# What the views share of places: the server, zone, file and line at which a finding stands. `$given` has the lists of groot-map by
# their words, each as text or absent, and in `lines` where the lines of written-out files come from.
include "names" {search: "./"};
include "entries" {search: "./"};

# The lines of a list of groot-map, each as its columns.
def rows: . // "" | split("\n")[] | select(. != "") | split("\t");
# The runs of lines that were copied or written out into each file; and a place in the file from which it comes.
def runs($given): [$given.lines | rows | {file: .[0], first: (.[1] | tonumber), last: (.[2] | tonumber), line: (.[3] | tonumber),
    step: (.[4] | tonumber), from: .[5]}] | group_by(.file) | map([.[0].file, .]) | keyed;
def in_source($runs): .line as $line | (if .file then $runs[.file] else null end // [])
  | first(.[] | select(.first <= $line and $line <= .last)) // null | if . then {file: .from, line: (.line + ($line - .first) * .step)} else null end;
def traced($runs): if $runs == {} then . else . + (in_source($runs) // {}) end;

# Of the lines of a list of records, those of the names and types `$wanted` and of wildcards, as {file, line, data} under
# "server\tzone\towner\ttype".
def by_place($given; $wanted): runs($given) as $runs
  | [$given.records | rows | select($wanted[.[2] + " " + .[3]] or (.[2] | startswith("*."))) | [.[0] + "\t" + .[1] + "\t" + .[2] + "\t" + .[3], .]]
  | group_by(.[0]) | map([.[0][0], map(.[1] | {file: .[4], line: (.[5] | tonumber), data: .[6]} | traced($runs))]) | keyed;
# The names with types whose records tell where findings stand, and what they say.
def names_wanted: [.[] | .type as $type | .zone + " SOA", (.place | (.cut | values | . + " NS"), (.ns | values | . + " A", . + " AAAA"), (.owner | values | . + " CNAME", . + " DNAME")),
  (.parted // empty | .[] | .zone + " SOA", if .cut then .cut + " NS" elif .to then .owner + " CNAME", .owner + " DNAME" else .name + " " + $type end)
  | [., true]] | keyed;
# The records of a server's zone with one of the types, of the first owner that has any; else, aside, its SOA record.
def located($records; owners; $types; $ns): .server as $server | .zone as $zone | ($server + "\t" + $zone + "\t") as $head
  | def of($owner; $types): [$types[] as $type | $records[$head + $owner + "\t" + $type] // empty | .[]
      | select($type != "NS" or $ns == null or .data == $ns)];
    first((of(owners; $types) | select(. != []) | map({server: $server, zone: $zone, file, line})),
      (of($zone; ["SOA"]) | select(. != []) | map({server: $server, zone: $zone, file, line, aside: true})), [{server: $server, zone: $zone, file: null, line: null}]);
# Where an entry is mended: servers with their zones, and with file and line as far as records are known.
def locations($records): . as $entry | .place
  | if $entry.kind == "glue-differs" then located($records; .ns; ["A", "AAAA"]; null)
    elif .ns then located($records; .cut; ["NS"]; .ns)
    elif .owner then located($records; .owner; ["CNAME", "DNAME"]; null)
    else [$entry | parted[] | if .cut then located($records; .cut; ["NS"]; null)
      elif .to then located($records; .owner; ["CNAME", "DNAME"]; null)
      elif .rdata then located($records; .name, (.name | wildcards[]); [$entry.type]; null)
      else located($records; empty; []; null) end | .[]] end;

# Locations without those aside, if their server has another one.
def nearest: if all(.[]; .aside != true) then . else . as $all
  | map(. as $one | select(.aside != true or all($all[]; .aside or [.server, .zone] != ($one | [.server, .zone])))) end;
# Findings whose places have the names of their files as they are shown, as `shown`, if any is shown in another way than it is.
def files_shown: if map(.at[].file) | is_plain then . else map(.at |= map(. + {shown: (.file // "" | shown)})) end;
# The servers of locations, each with its files and lines. A server's zone is said if it isn't `$zone`.
def sites($zone): group_by([.server, .zone]) | map({
    at: (.[0] | .server + if .zone == $zone then "" else " zone \(.zone)" end),
    lines: (if length == 1 then map(select(.file)) else map(select(.file)) | unique_by([.shown // .file, .line]) end | map((.shown // .file) + ":" + (.line | tostring)))});

# The data of records of a server's zone.
def data_at($records; $server; $zone; $owner; $types):
  [$types[] as $type | $records["\($server)\t\($zone)\t\($owner)\t\($type)"] // empty | .[].data] | unique;
# Of a delegation that differs from its zone: the data in the zone above, and those in the zone itself, as far as records are known.
def both_sets($records): .place as $place | ["A", "AAAA"] as $addresses
  | def above($owner; $types): data_at($records; $place.server; $place.zone; $owner; $types);
  if .kind == "delegation-differs" then [above($place.cut; ["NS"]), data_at($records; $place.ns; $place.cut; $place.cut; ["NS"])]
  elif .kind == "glue-differs" then [above($place.ns; $addresses), (first(($place.ns | upwards[] | select(. != $place.zone)) as $zone
      | [$place.ns, above($place.cut; ["NS"])[]][] as $server | data_at($records; $server; $zone; $place.ns; $addresses) | select(. != [])) // [])]
  else null end;
