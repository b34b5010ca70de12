# What is wrong and what mends it, for a terminal.
include "names" {search: "./"};
include "entries" {search: "./"};
include "cause" {search: "./"};

# A cause. A line that begins with a name, which is another's word, begins with a dash, so that no runner of pipelines obeys it.
def paragraph: (if .level == "note" then 5 else 20 end) as $most | "",
  "  \(.kinds | join(", ")): \(.headline)",
  "  mend: \(.mend)",
  (.listed[:$most][] | "    - \(if .kind then "\(.kind): " else "" end)\(.subject)\(.details)"),
  (.listed | length - $most | select(. > 0) | "    and \(.) more"),
  "  \(.asked)",
  (.walks | to_entries[] | (select(.key > 0) | "  or"), (.value | shortened[] | "    -> \(.who): \(.says)"));

# The lines of findings with their causes.
def lines($causes): summary($causes), grave, about, left_out, ($causes | group_by(.part)[] | "", parts[.[0].part], (sections[] | "", .[0].section, (.[] | paragraph)));
