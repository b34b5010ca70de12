# The causes behind findings, each with its places and walks in words.
include "names" {search: "./"};
include "entries" {search: "./"};
include "places" {search: "./"};
include "kinds" {search: "./"};
include "lists" {search: "./"};

# What is at fault in one line, without its server.
def subject: .place as $place | if .columns then .columns as $line | lists[.from].subject | map($line[.] // .) | add
  elif $place.ns then "\($place.cut) to \($place.ns)"
  elif .kind == "blackhole" and rewrite.did == "cname" then "\($place.owner) to \(rewrite.to)"
  elif $place.owner then $place.owner
  elif $place.class == "below" then "names below \($place.name)" else $place.name end;
# What the word of a line says of it.
def filled($what): .columns as $line | (lists[.from] | .words[$line.word][$what] // .[$what] // []) | map($line[.] // .) | add;
# How many rewrites lead to the place of an entry; and of several the one to whose place a query comes most directly.
def detour: . as $entry | [.walks[0] | label $there | .[]
  | if . == $entry.parted[0] or {server, zone, cut, ns} == $entry.place then break $there else select(.to) end] | length;
def witness: if length == 1 or .[0].columns then .[0] else map(select(.walks)) | sort_by(.entry)
  | first(.[] | select(detour == 0)) // min_by([detour, .entry]) end;
# The line on what is asked.
def asked: if .columns then filled("asked") else "query: \(.query) \(.type), entry \(.entry)" end;

# Of a finding on two servers that differ: the two with their zones, and without, as text. And which is behind the other one, with
# both serial numbers, if it shows them (RFC 1982); else null.
def lag: if .type != "SOA" or .parted == null or any(.parted[]; .rdata | not) then null
  else (.parted | map({server, zone, serial: (.rdata[0] | split(" ")[2] | tonumber)})) as [$one, $other]
    | (($other.serial - $one.serial + 4294967296) % 4294967296) as $ahead
    | if $ahead == 0 or $ahead == 2147483648 then null
      elif $ahead < 2147483648 then {behind: $one, ahead: $other} else {behind: $other, ahead: $one} end end;
# The name to which the query of an entry is led before two servers differ; null if it is the query's own.
def led_to: if .parted[0].name == .parted[1].name and .parted[0].name != .query then .parted[0].name else null end;
def in_order($one; $other): if $one <= $other then "\($one)\t\($other)" else "\($other)\t\($one)" end;
def paired: if .place.name then .parted as [$one, $other] | . + {lag: lag, led: led_to, servers: in_order($one.server; $other.server),
  pair: in_order("\($one.server) \($one.zone)"; "\($other.server) \($other.zone)")} else . end;
# The server that is behind for each pair of servers and zones; and the pairs of servers with whom the same is so in more than three zones.
def lags: map(select(.lag) | [.pair, .lag.behind.server]) | reverse | keyed;
def many($lags): map(select(.place.name and .parted[0].zone == .parted[1].zone) | ["\(.servers)\t\($lags[.pair])", .pair]) | unique
  | group_by(.[0]) | map(select(length > 3) | [.[0][0], true]) | keyed;
# The least cut of the circle to which a name server leads: the nearest cut at or above its name, a server of that, and
# so on; or the last server's name, if it is below no such cut. `$servers` has a server for each cut.
def circle($servers; $passed): [upwards[] | select($servers[.])][0] as $cut
  | if $cut == null then . else ($passed | index($cut)) as $first
    | if $first then $passed[$first:] | min else $servers[$cut] | circle($servers; $passed + [$cut]) end end;
# What tells the aliases of one cause: the name above them, and that above their targets. Of aliases with one target it is the
# least name above one.
def alias_at($least): rewrite.to as $to | [.zone, $least["\(.zone)\t\($to)"], ($to | parent)];
def least_owners: map(select(.kind == "blackhole" and rewrite.did == "cname") | ["\(.zone)\t\(rewrite.to)", (.place.owner | parent)])
  | group_by(.) | reverse | map(.[0]) | keyed;
# The row of the metadata of which a line tells: its server and zone.
def row: .columns | "\(.server)\t\(.zone)";
# What two sets of name servers have not in common, if that is one name.
def odd_one: if .kind == "delegation-differs" and .above and .below then (.above - .below) + (.below - .above) | if length == 1 then .[0] else null end else null end;
# What is known of all findings together: `least` owners of aliases; `lags` and `many` of servers that differ; `servers`, one for each
# cut; `unreached`, the rows that no query reaches; `copies`, the rows of copies that differ; `stale`, servers with copies of more than three zones that differ; and of a
# name server that is lame, dead or without rows, at `odd`, the cause.
def known: lags as $lags | {least: least_owners, lags: $lags, many: many($lags),
  servers: (map(select(.from == "check" and (.kind | IN("missing-glue", "cyclic-dependency", "no-address"))) | .place | [.cut, .ns]) | reverse | keyed),
  unreached: (map(select(.kind == "unreached-row") | [row, true]) | keyed),
  copies: (map(select(.kind == "copy-differs") | [row, true]) | keyed),
  stale: (map(select(.kind == "copy-differs") | .place.server) | group_by(.) | map(select(length > 3) | [.[0], true]) | keyed),
  odd: (map(if .kind == "lame-delegation" and .entry then [.place.ns + "\t" + .place.cut, [.kind, .place.zone, .place.cut, .place.ns]]
    elif .kind == "target-without-address" and .columns.type == "NS" then [.place.target, [.kind, .place.target]]
    elif .kind | IN("dead-name-server", "forgotten-row") then [.place.ns, [.kind, .place.ns]] else empty end) | keyed)};
# What the findings of one cause share: the servers that differ, the aliases, the circle, the missing address; of a line what its
# word says. A stale copy of a zone, its row that no query reaches, and an alias that leads there are one cause; so are two sets of
# name servers that differ in one name with what is wrong with that name.
def cause($known): . as $one | .place
  | if ($one | odd_one | . != null) and ($one | odd_one | $known.odd["\(.)\t\($one.place.cut)"] // $known.odd[.]) then
      $one | odd_one | $known.odd["\(.)\t\($one.place.cut)"] // $known.odd[.]
    elif $one.columns then $one | if .kind == "alias-differs" then ["zone", .columns.held]
      elif .kind == "unreached-row" and (.columns.is_reached or ($known.copies[row] and ($known.stale[.place.server] | not))) then ["zone", .zone]
      elif .kind == "copy-differs" and ($known.stale[.place.server] | not) then ["zone", .zone]
      elif .place.cut == .zone and $known.unreached[row] then ["zone", .zone]
      else .columns as $line | [.kind] + (lists[.from].words[$line.word].cause | map($line[.])) end
    elif .name then "\($one.servers)\t\($known.lags[$one.pair])" as $wide
      | if $known.many[$wide] then ["many", $wide] else [$one.kind, $one.pair] end
    elif $one.kind == "blackhole" then [$one.kind] + ($one | if rewrite.did == "dname" then [.zone, .place.owner] else alias_at($known.least) end)
    elif $one.kind == "rewrite-limit" then [.owner] as $place | [$one.walks[0][] | .owner // empty] | group_by(.)
      | ["circle", ((map(select(length > 1)[0]) + $place)[0])]
    elif .owner then [$one.kind, .zone, .owner]
    elif $one.kind | IN("missing-glue", "cyclic-dependency", "no-address") then ["address", (.ns | circle($known.servers; []))]
    elif $one.kind == "delegation-differs" then [$one.kind, .zone, .cut]
    else [$one.kind, .zone, .cut, .ns] end;
def server_names: if .[0].zone == .[1].zone then map(.server) else map("\(.server) (zone \(.zone))") end;
# The server that delegates a name where the other one doesn't; or null.
def delegating: .parted as $parted | if $parted == null or $parted[0].zone != $parted[1].zone then null
  else [$parted[] | select(.did == "refer")] | if length == 1 then .[0] else null end end;
# How many aliases a cause has.
def aliases: if .[0].kind == "blackhole" and (.[0] | rewrite.did) == "cname" then map(.place.owner) | unique | length else 0 end;
# The headline of a cause, and what mends it.
def headline($lag): .[0] as $first | aliases as $aliases
  | if $lag then [$lag.behind, $lag.ahead] | "\(server_names | join(" is behind ")): serial \(.[0].serial), not \(.[1].serial)"
    elif $first | delegating then $first | delegating as $one
      | "\($one.server) delegates \($one.cut), and \(.parted[] | select(. != $one) | .server) doesn't"
    elif $first.place.name then "\($first.parted | server_names | join(" and ")) answer differently"
    elif $aliases > 1 and ($first.place.owner | is_reverse) then
      "\($aliases) aliases of addresses below \($first.place.owner | parent) lead to names that don't exist"
    elif $aliases > 1 and (map(rewrite.to) | unique | length) > 1 then
      "\($aliases) aliases below \($first.place.owner | parent) lead to names below \($first | rewrite.to | parent) that don't exist"
    else kinds[$first.kind].what end;
def mend($lag): .[0] as $first | $first.parted as $parted
  | if $lag then "let \($lag.behind.server) transfer the newer zone, or publish one file on both"
    elif $first | delegating then "add the delegation to the zone of the server that lacks it, or take it out of the other one"
    elif $parted and $parted[0].zone != $parted[1].zone then "give both servers the same zones, with the same delegations"
    elif aliases > 1 and ($first.place.owner | is_reverse) then "add a PTR record for each address that has a name; the others need none"
    elif aliases > 1 and (map(rewrite.to) | unique | length) > 1 then "correct the targets, or add records for them"
    else kinds[$first.kind].mend end;

# Of the findings of a cause what says most comes first.
def rank: if .kind == "alias-differs" then 0 elif .kind == "unreached-row" then 2
  elif .kind == "delegation-differs" or .from == "delegations" then 3 else 1 end;
# The same difference of two servers in more than three zones is one cause, with a line for each zone: the findings of one.
def line_of_zone: .[0].zone as $zone | (first(.[].lag | values) // null) as $lag
  | {kind: null, subject: $zone, details: (if $lag then ": serial \($lag.behind.serial), not \($lag.ahead.serial)" else "" end
    + (group_by(.led // subject) | sort_by(.[0].entry)
      | map(select($lag == null or .[0].place.name != $zone) | "\(.[0] | .led // subject) (\(map(.type) | distinct | join(" ")))")
      | if . == [] then "" else "\(if $lag then "; besides" else ":" end) \(.[:20] | join(", "))\(length - 20 | if . > 0 then " and \(.) more names" else "" end)" end))};
# What stands behind a place's subject: what is said of it, its servers, the names that lead there, and what differs between two zones.
def details: if .says == [] then "" else ": " + (.says | joined(" ")) end + if .sites == [] then "" else ", on " +
  (.sites | map(.at + if .lines == [] then "" else " (" + (.lines | joined(", ")) + ")" end) | joined(", ")) end
  + (.leading // [] | if . == [] then "" else "; also \(.[:20] | join(", "))\(length - 20 | if . > 0 then " and \(.) more" else "" end), which lead there" end)
  + (if (.above // []) == [] or .below == [] then "" else "; above \(.above | join(" ")), in the zone itself \(.below | join(" "))" end);

# The places of a cause, each with its witness, what is said of it, the names that lead there, and the servers with
# files and lines. Servers that differ stand in the headline: here with files and lines alone.
def places: group_by([.kind, .led // subject]) | sort_by(.[0] | rank, .entry)
  | map(.[0].zone as $zone | ([.[].at[]] | nearest) as $at | (map(select(.led == null)) | if . == [] then null else . end) as $own
    | {kind: .[0].kind, subject: (if $own then $own[0] | subject else .[0].led end), level: .[0].level, zone: $zone,
       key: .[0].key, first: witness, told: (witness | if .walks then told | map(shortened | map(.who + ": " + .says)) else [] end), at: ($at | distinct),
       says: (if .[0].place.name then $own // . | map(.type) | distinct | if length == 12 then ["all types"] else . end
         elif .[0].columns then [.[0] | filled("says") | values] else [] end),
       leading: (map(select(.led) | subject) | distinct), above: .[0].above, below: .[0].below, sites: ($at | sites($zone))}
    | if .says != [] and all(.sites[]; .lines == []) then .sites = [] else . end | . + {details: details});
# A cause of findings that share it.
def made_cause: sort_by(rank, .entry) | (first(.[].lag | values) // null) as $lag | witness as $witness | (map(.zone) | unique) as $zones
  | {zone: .[0].zone, server: .[0].at[0].server, entry: .[0].entry, from: .[0].from,
    level: (map(.level) | if index("error") then "error" elif index("warning") then "warning" else "note" end),
    zones: $zones, asked: ($witness | asked), walks: (if $witness.walks then $witness | told else [] end),
    kinds: (map(.kind) | distinct), headline: headline($lag), mend: mend($lag), faults: length, places: places}
  + if .[0].place.name and ($zones | length) > 1 then {listed: (group_by(.zone) | sort_by(.[0].entry) | map(line_of_zone)),
      headline: "in \($zones | length) zones: \(if $lag then "\($lag.behind.server) is behind \($lag.ahead.server)" else "\(.[0].parted | map(.server) | join(" and ")) answer differently" end)"}
    else {} end;
# A server whose copies of more than three zones differ.
def of_copies: if .kinds == ["copy-differs"] and (.zones | length) > 3 then .headline = "in \(.zones | length) zones: \(.server) holds other copies than \(
    [.places[].first.columns.of] | unique | join(", "))" else . end;
# What is listed below the headline of a cause: its places in words.
def listing: if .listed then . else (.kinds | length > 1) as $several
  | .listed = (.places | map({subject, details, kind: (if $several then .kind else null end)})) end;

# The parts of a report, in order, and that of a cause.
def parts: ["What queries find", (lists | [.[].part | values] | distinct[])];
def part: if .from == "check" then 0 else .from as $from | parts | index(lists[$from].part) end;
def severity: {error: 0, warning: 1, note: 2}[.level];

# All causes of the findings that aren't known, by part, zone and server; those of several zones come first.
def causes: .findings | map(select(.known | not) | paired) | files_shown | known as $known
  | group_by(cause($known)) | map(made_cause | of_copies | listing
    | (.zones | length > 1) as $several
    | . + {section: (if $several then "\(.zones | length) zones" else "zone \(.zone)" end),
        order: (if $several then [-(.zones | length)] else [0, (.zone | name_order)] end), part: part})
  | sort_by(.part, .order, .server, .entry // infinite);
# The causes of one section and then of the next.
def sections: group_by([.part, .order, .section]);

# What there is in one line; how grave it is; what was checked; and what was left out.
def summary($causes): (.findings | map(select(.known | not)) | length) as $new
  | [if $new == 0 then (if .known == null then "nothing found" else "nothing new" end)
     else "\(if .known == null then "" else "new: " end)\($new | counted("finding")) from \($causes | length | counted("cause"))" end,
     (.known // empty | "known: \(.)"), (.gone // empty | "gone: \(.)")] | join("; ");
def grave: [.findings[] | select(.known | not)] | group_by(severity)[] | .[0].level as $level
  | "\(length | counted($level)): \(group_by(.kind) | map("\(length) \(.[0].kind)") | join(", "))";
def about: (if .about then "\(.about) " else "" end) + "(\(.names | counted("name")), \(.classes) classes, at most \(.rewrites | counted("rewrite")))";
def left_out: .off | select(. != {} and . != null) | "left out by --off: \(to_entries | map("\(.key) (\(.value))") | join(", "))";
