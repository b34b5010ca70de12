# Findings as JUnit XML, a failed test for each place at fault.
include "names" {search: "./"};
include "entries" {search: "./"};
include "cause" {search: "./"};

# A file and a line as attributes.
def at: if .file then " file=\"\(.file | file_name | shown | marked)\" line=\"\(.line)\"" else "" end;
def case($cause): "\(.kind) \(.subject) on \(.at | map(.server) | distinct | join(", "))" as $name
  | "<testcase classname=\"\(.zone | marked)\" name=\"\($name | marked)\"\(.at[0] | at)>",
    "<failure type=\"\(.kind)\" message=\"\($cause.headline | marked)\">",
    (.subject + .details + "\nmend: " + $cause.mend + "\n" + (.first | asked) | marked),
    (.told | to_entries[] | (select(.key > 0) | "or"), (.value[] | "-> " + . | marked)),
    "</failure>", "</testcase>";

# The lines of the suite of findings with their causes.
def lines($causes): [$causes[] | . as $cause | .places[] | [case($cause)]] as $cases | ($cases | length) as $number
  | "<?xml version=\"1.0\" encoding=\"UTF-8\"?>",
  "<testsuites>", "<testsuite name=\"groot\" tests=\"\([$number, 1] | max)\" failures=\"\($number)\">",
  "<properties><property name=\"about\" value=\"\(about | marked)\"/></properties>",
  $cases[][], (select($number == 0) | "<testcase classname=\"groot\" name=\"\(if .known then "nothing new" else "nothing found" end)\"/>"),
  "</testsuite>", "</testsuites>";
