# The lists of groot-map: the columns of each, and of one that has findings its part of the views, the columns that say where a
# finding is, what it is called, what is asked to see it, and its words: for each word that counts its kind, what findings of one cause share, what it says
# besides, and perhaps the only type of a record of which it counts. In a text that is written as an array, names of columns stand for
# what they hold. What stands between the outermost brackets is JSON.
def lists:
{
  "records": {"columns": ["server", "zone", "owner", "type", "file", "line", "data"]},
  "delegations": {"columns": ["word", "server", "zone", "cut", "ns", "file", "line"],
    "part": "Delegations and name servers, beside what queries meet", "place": ["server", "zone", "cut", "ns"],
    "subject": ["cut", " NS ", "ns"], "asked": ["no query from the top servers shows it"],
    "words": {
      "lame": {"kind": "lame-delegation", "cause": ["cut", "ns"]},
      "differs": {"kind": "delegation-differs", "cause": ["cut", "ns"]},
      "no-glue": {"kind": "missing-glue", "cause": ["cut", "ns"]},
      "glue-differs": {"kind": "glue-differs", "cause": ["cut", "ns"]},
      "dead": {"kind": "dead-name-server", "cause": ["ns"]}}},
  "servers": {"columns": ["word", "ns", "origins", "cuts", "file", "line"],
    "part": "Delegations and name servers, beside what queries meet", "place": ["ns"],
    "subject": ["owner", " NS ", "ns"], "asked": ["no query from the top servers shows it"],
    "words": {
      "dead": {"kind": "dead-name-server", "cause": ["ns"]},
      "no-row": {"kind": "forgotten-row", "cause": ["ns"]}}},
  "targets": {"columns": ["server", "zone", "owner", "type", "file", "line", "data", "target", "four", "six", "word"],
    "part": "Targets of records", "place": ["server", "zone", "owner", "type", "target"],
    "subject": ["owner", " ", "type", " to ", "target"],
    "words": {
      "nowhere": {"kind": "target-without-address", "cause": ["target"],
        "asked": ["queries: ", "target", " A and AAAA, which end in ", "ends"]},
      "partly": {"kind": "target-without-address", "cause": ["target"],
        "asked": ["queries: ", "target", " A and AAAA, which end in ", "ends"]},
      "alias": {"kind": "aliased-name-server", "cause": ["target"], "of": "NS", "asked": ["queries: ", "target", " A and AAAA"]}}},
  "aliases": {"columns": ["word", "server", "zone", "owner", "type", "file", "line", "data", "target", "asked"],
    "part": "Aliases into other zones", "place": ["server", "zone", "owner", "target"],
    "subject": ["owner", " to ", "target"],
    "words": {
      "differs": {"kind": "alias-differs", "cause": ["server", "held"],
        "asked": ["query: ", "target", " ", "asked", ", at ", "server", " and from the top servers"]}}},
  "copies": {"columns": ["word", "row", "server", "zone", "serial", "first"],
    "part": "Copies of zones", "place": ["server", "zone"],
    "subject": ["zone"], "asked": ["no query from the top servers shows it"],
    "words": {
      "behind": {"kind": "copy-differs", "cause": ["server"], "says": ["behind ", "of", ": serial ", "serial", ", not ", "first"]},
      "ahead": {"kind": "copy-differs", "cause": ["server"], "says": ["ahead of ", "of", ": serial ", "serial", ", not ", "first"]},
      "forgotten": {"kind": "copy-differs", "cause": ["server"], "says": ["other records than ", "of", ", with the same serial ", "serial"]},
      "apart": {"kind": "copy-differs", "cause": ["server"], "says": ["other records than ", "of", ": serial ", "serial", ", not ", "first"]}}},
  "reached": {"columns": ["word", "row", "server", "zone", "file"],
    "part": "Rows of the metadata", "place": ["server", "zone"],
    "subject": ["row ", "row", ", zone ", "zone"], "asked": ["queries: the SOA record of each zone"],
    "words": {
      "unreached": {"kind": "unreached-row", "cause": ["server"]}}},
  "chain": {"columns": ["word", "server", "zone", "cut", "child", "tag", "file", "line"],
    "part": "Chain of trust", "place": ["server", "zone", "cut", "child"],
    "subject": ["cut"], "asked": ["signatures and their times aren't looked at"],
    "words": {
      "bad-data": {"kind": "bad-dnssec-data", "cause": ["zone", "cut"]},
      "misplaced": {"kind": "misplaced-ds", "cause": ["zone", "cut"]},
      "unsigned": {"kind": "unsigned-zone", "cause": ["cut"], "says": ["no key at ", "child"]},
      "no-match": {"kind": "no-matching-key", "cause": ["cut"], "says": ["other keys at ", "child"]}}}
};
