# Findings as one page for a browser.
include "names" {search: "./"};
include "entries" {search: "./"};
include "cause" {search: "./"};

def style: "
:root { color-scheme: light dark; --line: #8887; --error: #b3261e; --warning: #8a5a00; --note: #3a6ea5; }
@media (prefers-color-scheme: dark) { :root { --error: #ff8a80; --warning: #ffb74d; --note: #90caf9; } }
body { font: 1rem/1.5 system-ui, sans-serif; max-width: 64rem; margin: 0 auto; padding: 1rem; overflow-wrap: break-word; }
h1 { font-size: 1.4rem; } h2 { font-size: 1.3rem; margin-top: 2.5rem; break-after: avoid; }
h3 { font-size: 1.1rem; margin-top: 2rem; break-after: avoid; }
h4 { font-size: 1rem; margin: 0; } h4 a { color: inherit; text-decoration: none; }
p, ul { margin: .3rem 0; }
table { border-collapse: collapse; margin-top: 1rem; }
th, td { text-align: left; vertical-align: top; padding: .2rem 1.2rem .2rem 0; border-bottom: 1px solid var(--line); }
th { overflow-wrap: normal; }
.number { text-align: right; }
b.error { color: var(--error); } b.warning { color: var(--warning); } b.note { color: var(--note); }
article { border-left: .3rem solid var(--error); padding-left: 1rem; margin: 1.5rem 0; break-inside: avoid; }
article.warning { border-color: var(--warning); } article.note { border-color: var(--note); }
ol { list-style: none; display: flex; flex-wrap: wrap; gap: .6rem 2rem; padding: 0 2rem 0 0; margin: .6rem 0; }
ol li { position: relative; border: 1px solid var(--line); border-radius: .4rem; padding: .3rem .6rem; }
ol li b { display: block; }
ol li:not(:last-child)::after { content: \"\\2192\"; position: absolute; left: calc(100% + .55rem); top: 50%; transform: translateY(-50%); }
ol li.fault { border: 2px solid var(--error); }
@media print { body { font-size: .8rem; padding: 0; } article.long { break-inside: auto; } }
@media (max-width: 40rem) { table { font-size: .85rem; } th, td { padding-right: .5rem; } tr > :nth-child(4) { display: none; } ul { padding-left: 1rem; } ol { flex-direction: column; gap: 1.5rem; padding: 0; }
  ol li:not(:last-child)::after { content: \"\\2193\"; left: 1rem; top: calc(100% + .75rem); } }
";
def listed: "<li>\(if .kind then "\(.kind): " else "" end | marked)<code>\(.subject | broken)</code>\(.details | broken)</li>";
def box: "<li\(if .at_fault then " class=\"fault\"" else "" end)><b>\(.who | broken)</b> \(.says | broken)</li>";
def article: "<article id=\"cause-\(.number)\" class=\"\(.level)\(if .listed | length > 20 then " long" else "" end)\">",
  "<h4><a href=\"#cause-\(.number)\">\(.kinds | join(", ") | marked)</a></h4>",
  "<p>\(.headline | broken)</p>",
  "<p>Mend: \(.mend | broken)</p>",
  "<ul>", (.listed[] | listed), "</ul>",
  "<p>\(.asked | broken)</p>",
  (.walks[] | "<ol>", (shortened[] | box), "</ol>"),
  "</article>";
# A line of the table: causes of one section with the same kinds.
def row: .[0] as $first | "<tr><td><b class=\"\($first.level)\">\($first.level)</b></td><td><a href=\"#cause-\($first.number)\">\($first.kinds | join(", ") | marked)</a></td>"
  + "<td>\($first.section | ltrimstr("zone ") | broken)</td><td class=\"number\">\(length)</td><td class=\"number\">\(map(.faults) | add)</td></tr>";

# The lines of the page of findings with their causes.
def lines($causes): (summary($causes) | marked) as $summary | ($causes | to_entries | map(.value + {number: (.key + 1)})) as $causes
  | "<!DOCTYPE html>", "<html lang=\"en\">", "<head>", "<meta charset=\"utf-8\">",
  "<meta name=\"viewport\" content=\"width=device-width, initial-scale=1\">",
  "<title>groot: \($summary)</title>", "<style>\(style)</style>", "</head>", "<body>",
  "<h1>\($summary)</h1>", ((grave, about, left_out) | "<p>\(broken)</p>"),
  (select($causes != []) | "<table>",
    "<tr><th>level</th><th>kind</th><th>zone</th><th class=\"number\">causes</th><th class=\"number\">findings</th></tr>",
    ($causes | group_by([severity, .part, .order, .kinds])[] | row), "</table>"),
  ($causes | group_by(.part)[] | "<section>", "<h2>\(parts[.[0].part] | marked)</h2>", (sections[] | "<h3>\(.[0].section | broken)</h3>", (.[] | article)), "</section>"),
  "</body>", "</html>";
