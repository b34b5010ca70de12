# What the views share of a report's entries and their walks.
include "names" {search: "./"};

# The entries of a report, numbered from 1 as `groot recheck` counts them; an error if the input is no report.
def entries: [.faults? | arrays | to_entries | map(.value + {entry: (.key + 1)})][0] // error("this is no report of groot check");
# What tells faults of two reports apart: kind, place, and the end of each walk with its data.
def key: [.kind, .place, (.walks | map(last))] | tojson;

# An entry's last rewrite; the steps at which its two walks part; and its zone. They part at the first steps, referrals
# aside, that say different things. If these are in different zones, one server refers where the other one answers: they
# part at the steps in the zone above, if both walks have one for the name.
def rewrite: [.walks[0][] | select(.to)] | last;
def parting: .walks as $walks | $walks | map(map(select(.did != "refer"))) as [$one, $other]
  | first((range(0; $one | length) | [$one[.], $other[.]] | select(map([.did, .to, .rdata]) | .[0] != .[1])), [$one[-1], $other[-1]])
  | . as [$left, $right] | if $left.zone == $right.zone then . else first(
      ($walks[1][] | select([.zone, .name] == [$left.zone, $left.name]) | [$left, .]),
      ($walks[0][] | select([.zone, .name] == [$right.zone, $right.name]) | [., $right]), .) end;
def parted: .parted // parting;
def zone: .place.zone // parted[0].zone;

# A step in words: what comes of asking a server.
def says: if .did == "refer" then "refers \(.cut) to \(.ns)"
  elif .did == "answer" then "answers " + (.rdata // [] | if length == 1 then .[0] else join(", ") end)
  elif .did == "cname" then "CNAME\(if .owner == .name then "" else " of \(.owner)" end) to \(.to)"
  elif .did == "nxdomain" then "has no name \(.name)"
  elif .did == "nodata" then "has no such data at \(.name)"
  elif .did == "dname" then "DNAME of \(.owner) to \(.to)"
  elif .did == "outside" then "has no zone for \(.name)"
  else .owner as $owner | {unhosted: "isn't configured", "no-address": "its address can't be learnt", lame: "doesn't serve the zone",
    limit: "no more rewrites, at \($owner)", overlong: "the DNAME of \($owner) makes a name of more than 255 octets"}[.did] end;
# An entry's walks in words. The step at fault is the referral of its place, or else the last one.
def told: .place as $place | (.kind | IN("delegation-differs", "missing-glue", "glue-differs", "cyclic-dependency")) as $at_referral
  | .walks | map((length - 1) as $last | [range(0; $last + 1) as $number | .[$number] | {who: (.server // .ns), name, says: says,
      at_fault: (if $at_referral then .did == "refer" and ({server, zone, cut, ns} == $place) else $number == $last end)}]);
# A walk of more than eight steps without its middle.
def shortened: if length > 8 then .[:4] + [{who: "..", says: "\(length - 6) more steps"}] + .[-2:] else . end;
