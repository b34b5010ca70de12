# What the views share of names and texts: a name's labels, and how text is escaped.

# Text without the characters that a terminal obeys, that turn its direction, that have no width, or that XML can't hold.
def is_obeyed: . < 32 or (. > 126 and . < 160) or . == 1564 or (. > 8202 and . < 8208) or (. > 8231 and . < 8239)
  or (. > 8287 and . < 8298) or . == 65279 or . == 65534 or . == 65535;
def shown: if test("^[ -~]*\\z") then . else explode | map(if is_obeyed then 65533 else . end) | implode end;
# Whether all texts of a value are shown as they are.
def is_plain: tojson | test("^[ -~]*\\z") and (test("\\\\[bfnrtu]") | not);
# Findings whose texts are all shown so, but for their keys and the names of their files.
def all_shown: if is_plain then .
  else map(. as $one | walk(if type == "string" then shown else . end) | .key = $one.key | .file = $one.file
    | .at |= [range(0; length) as $number | .[$number] + {file: $one.at[$number].file}]) end;
# Texts in one, with a text between, as join has it, which takes longer.
def joined($between): if length < 2 then .[0] // "" else (.[:-1] | map(. + $between) | add) + .[-1] end;
# The same as text of HTML and XML; with places to break at after dots; and of DOT.
def marked: @html | if contains("&apos;") then split("&apos;") | join("&#39;") else . end;
def broken: marked | split(".") | joined(".<wbr>") | if endswith(".<wbr>") then .[:-5] else . end;
def quoted: shown | split("\\") | join("\\\\") | split("\"") | join("\\\"") | split("&") | join("&amp;") | "\"\(.)\"";

def distinct: if length < 2 then . elif length == 2 then if .[0] == .[1] then .[:1] else . end
  else to_entries | group_by(.value) | map(.[0]) | sort_by(.key) | map(.value) end;
# An object of the pairs of a list, each a key and its value: the last of a key counts.
def keyed: reduce .[] as $pair ({}; setpath($pair[:1]; $pair[1]));
def counted($one; $several): "\(.) \(if . == 1 then $one else $several end)";
def counted($word): counted($word; $word + "s");

# A name's labels, the lowest first; the name and all names above it; the name above it; what names are sorted by; and whether
# it stands among the addresses.
def labels: if contains("\\") then [scan("(?:[^\\\\.]|\\\\[0-9]{3}|\\\\[^0-9])+")] else rtrimstr(".") | split(".") end;
def upwards: labels as $labels | [range(0; $labels | length) | $labels[.:] | map(. + ".") | add] + ["."];
def parent: upwards[1] // ".";
def name_order: labels | reverse;
def is_reverse: ".\(.)" | endswith(".in-addr.arpa.") or endswith(".ip6.arpa.");
# The wildcards that may answer for a name, the nearest first.
def wildcards: upwards[1:] | map("*." + ltrimstr("."));
# The name of a file without the escapes of a list of records.
def file_name: if contains("\\")
  then gsub("\\\\(?<octet>[0-9]{3}|.)"; .octet | {t: "\t", n: "\n"}[.] // if length == 3 then [tonumber] | implode else . end) else . end;
