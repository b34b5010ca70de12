#!/usr/bin/env python3
"""Runs the views on their cases: run.py [CASE ..]

A case is a folder of cases/: report.json, what each view must make of it (VIEW.out, or VIEW-NAME.out with the words of
VIEW-NAME.args), the lists of groot-map that the views get, as records.tsv, and old.json, a report or findings that are known. A
file `example` has the name of an example, whose report is taken; then records.tsv has what `groot-map records` prints of its
metadata, which is compared if that program is there. Of html.jq the body is compared, and of sarif.jq the results. Besides,
what each view makes of each case is read back: HTML, XML and SARIF must hold what the report says, all.jq must make the same,
and DOT is drawn if `dot` is there, and pages are loaded if `chromium` is there. It ends with status 1 if a case is wrong, and
with 2 if there is no jq.
"""
import concurrent.futures
import difflib
import functools
import html.parser
import json
import os
import re
import shutil
import subprocess
import sys
import tempfile
import xml.etree.ElementTree
from typing import Any, Callable, Dict, Iterator, List, Optional, Sequence, Tuple

HERE = os.path.dirname(os.path.abspath(__file__))
TOP = os.path.dirname(HERE)
Json = Dict[str, Any]

CASES = os.path.join(HERE, "cases")
KINDS = ["alias-differs", "aliased-name-server", "answers-differ", "bad-dnssec-data", "blackhole", "copy-differs", "cyclic-dependency",
         "dead-name-server", "delegation-differs", "forgotten-row", "glue-differs", "lame-delegation", "misplaced-ds", "missing-glue",
         "no-address", "no-matching-key", "overlong", "rewrite-limit", "target-without-address", "unreached-row", "unsigned-zone"]
MEMBERS = {"kind", "level", "from", "zone", "place", "at", "file", "line", "mend", "key"}
ALL = ["new", "findings", "text", "html", "sarif", "junit"]
LISTS = ["records", "lines", "delegations", "servers", "targets", "aliases", "copies", "reached", "chain"]
OBEYED = re.compile("[\x00-\x1f\x7f-\x9f\u061c\u200b-\u200f\u2028-\u202e\u2060-\u2069\ufeff\ufffe\uffff]")
DOT_TEXT = r'"(?:[^"\\]|\\.)*"'
DOT_LINE = re.compile(rf"digraph groot {{|  rankdir=LR;|  {DOT_TEXT}( -> {DOT_TEXT})? \[label={DOT_TEXT}(, [a-z]+=[a-z]+)*\];|}}")


def contents(*path: str) -> str:
    with open(os.path.join(*path), encoding="utf-8", newline="") as file:
        return file.read()


def report_of(folder: str) -> str:
    """The path of the report of a case."""
    example = example_of(folder)
    return os.path.join(TOP, "examples", example, "report.json") if example else os.path.join(folder, "report.json")


def example_of(folder: str) -> Optional[str]:
    """The example that a case is of, or None."""
    path = os.path.join(folder, "example")
    return contents(path).strip() if os.path.exists(path) else None


@functools.lru_cache(maxsize=None)
def view(name: str, folder: str, more: Tuple[str, ...] = ()) -> Tuple[int, str, str]:
    """Status, output and error of a view over the report of a case."""
    words = list(more)
    for given in LISTS:
        if os.path.exists(os.path.join(folder, f"{given}.tsv")):
            words += ["--rawfile", given, f"{given}.tsv"]
    if os.path.exists(os.path.join(folder, "old.json")):
        words += ["--slurpfile", "old", "old.json"]
    ended = subprocess.run(["jq", {"new": "-cf", "findings": "-cf", "all": "-rcf"}.get(name, "-rf"), os.path.join(HERE, f"{name}.jq"), *words, report_of(folder)],
                           cwd=folder, stdin=subprocess.DEVNULL, capture_output=True)
    return ended.returncode, ended.stdout.decode(), ended.stderr.decode()


def differences(right: str, own: str) -> List[str]:
    """A line for each way in which two texts differ."""
    lines = difflib.unified_diff(right.splitlines(keepends=True), own.splitlines(keepends=True), "expected", "view", n=1)
    return [line.rstrip("\n")[:2000] for line in lines]


def compared(name: str, text: str) -> str:
    """What is compared of the text that a view makes: the body of a page, the results of SARIF, else all."""
    if name == "html":
        return text[text.index("<body>"):]
    if name == "sarif":
        return json.dumps(json.loads(text)["runs"][0]["results"], indent=2, sort_keys=True) + "\n"
    return text


def expected(name: str, text: str) -> str:
    return json.dumps(json.loads(text), indent=2, sort_keys=True) + "\n" if name == "sarif" else text


class Page(html.parser.HTMLParser):
    """The tags of a page, its ids, the places to which it leads, and its text in one line."""

    def __init__(self, text: str) -> None:
        super().__init__()
        self.tags: List[str] = []
        self.ids: List[str] = []
        self.links: List[str] = []
        self.words: List[str] = []
        self.open: List[str] = []
        self.is_glued = False
        self.feed(text)
        self.close()
        self.text = " ".join(" ".join(self.words).split())

    def handle_starttag(self, tag: str, attributes: List[Tuple[str, Optional[str]]]) -> None:
        self.tags.append(tag)
        self.is_glued = tag == "wbr"
        if tag not in ("meta", "wbr"):
            self.open.append(tag)
        for name, value in attributes:
            if name == "id":
                self.ids.append(value or "")
            elif name in ("href", "src"):
                self.links.append(value or "")
            elif name not in ("class", "lang", "charset", "name", "content"):
                raise ValueError(f"attribute {name}")

    def handle_endtag(self, tag: str) -> None:
        self.is_glued = False
        if not self.open or self.open.pop() != tag:
            raise ValueError(f"{tag} is closed where it isn't open")

    def handle_data(self, text: str) -> None:
        if self.open and self.open[-1] != "style":
            if self.is_glued:
                self.words[-1] += text
            else:
                self.words.append(text)
        self.is_glued = False


def shown(text: str) -> str:
    """A text as the views show it."""
    return OBEYED.sub("\ufffd", text)


def names_of(report: Json) -> Iterator[str]:
    """The names that each view must show: of each place those that say where it is, but for its server."""
    for fault in report["faults"]:
        place = fault["place"]
        yield from (shown(place[member]) for member in ("owner", "cut", "ns", "name") if member in place)


def faults_of_html(text: str, report: Json) -> Iterator[str]:
    page = Page(text)
    if page.open:
        yield f"{page.open} aren't closed"
    if set(page.tags) - {"html", "head", "meta", "title", "style", "body", "h1", "h2", "h3", "h4", "p", "table", "tr", "th", "td", "a", "section",
                         "article", "ul", "ol", "li", "b", "code", "wbr"}:
        yield f"tags {sorted(set(page.tags))}"
    if len(set(page.ids)) != len(page.ids):
        yield "an id stands twice"
    yield from (f"{link} leads nowhere" for link in page.links if link[:1] != "#" or link[1:] not in page.ids)
    style = text[text.index("<style>"):text.index("</style>")]
    yield from (f"{word} in the style" for word in ("url", "import", "//") if word in style)
    yield from (f"{name} isn't shown" for name in names_of(report) if name not in page.text)


def faults_of_junit(text: str, report: Json) -> Iterator[str]:
    suites = xml.etree.ElementTree.fromstring(text.encode())
    failures = suites.findall("./testsuite/testcase/failure")
    if suites.findall("./testsuite")[0].get("failures") != str(len(failures)) or bool(failures) != bool(report["kinds"]):
        yield "the number of failures"
    if len({(test.get("classname"), test.get("name")) for test in suites.iter("testcase")}) != max(len(failures), 1):
        yield "two tests have one name"
    told = "\n".join(failure.text or "" for failure in failures)
    yield from (f"{name} isn't shown" for name in names_of(report) if name not in told)


def faults_of_value(value: Any, schema: Json, whole: Json, path: str = "$") -> Iterator[str]:
    """The ways in which a value isn't what a schema says, as far as the schema of SARIF goes here."""
    if "$ref" in schema:
        schema = whole["definitions"][schema["$ref"].rpartition("/")[2]]
    is_type = {"object": dict, "array": list, "string": str, "integer": int}.get(schema.get("type", ""), object)
    if not isinstance(value, is_type) or value not in schema.get("enum", [value]):
        yield f"{path} is {value!r}"
        return
    if isinstance(value, int) and value < schema.get("minimum", value) or isinstance(value, str) and not re.search(schema.get("pattern", ""), value):
        yield f"{path} is {value!r}"
    if isinstance(value, dict):
        yield from (f"{path} has no {name}" for name in schema.get("required", []) if name not in value)
        for name, member in value.items():
            inner = schema.get("properties", {}).get(name, schema["additionalProperties"])
            if inner is False:
                yield f"{path}.{name} isn't allowed"
            else:
                yield from faults_of_value(member, inner, whole, f"{path}.{name}")
    if isinstance(value, list):
        if schema.get("uniqueItems") and any(one in value[:at] for at, one in enumerate(value)):
            yield f"{path} has an item twice"
        for at, item in enumerate(value):
            yield from faults_of_value(item, schema["items"], whole, f"{path}[{at}]")


def faults_of_sarif(text: str, report: Json) -> Iterator[str]:
    log = json.loads(text)
    schema = json.loads(contents(HERE, "sarif-2.1.0.part.json"))
    yield from faults_of_value(log, schema, schema)
    rules, results = log["runs"][0]["tool"]["driver"]["rules"], log["runs"][0]["results"]
    texts = [rule[member]["text"] for rule in rules for member in ("shortDescription", "fullDescription", "help")]
    if [rule["id"] for rule in rules] != KINDS or not all(texts):
        yield "the rules aren't those of the kinds"
    if len({"physicalLocation" in result["locations"][0] for result in results}) > 1:
        yield "a result has no line, and another has one"  # GitHub refuses a log with such a result
    if any(rules[result["ruleIndex"]]["id"] != result["ruleId"] for result in results):
        yield "the number of a rule"
    if {result["ruleId"] for result in results} != report["kinds"]:
        yield "a kind isn't shown"
    marks = [result["partialFingerprints"]["fault/v1"] for result in results]
    if len(set(marks)) != len(marks):
        yield "two results have one fingerprint"
    told = "\n".join(result["message"]["text"] for result in results)
    yield from (f"{name} isn't shown" for name in names_of(report) if name not in told)


def faults_of_dot(text: str, report: Json) -> Iterator[str]:
    yield from (f"no statement: {line}" for line in text.removesuffix("\n").split("\n") if not DOT_LINE.fullmatch(line))
    if shutil.which("dot"):
        drawn = subprocess.run(["dot", "-Tsvg"], input=text.encode(), capture_output=True)
        if drawn.returncode or drawn.stderr:
            yield drawn.stderr.decode()
            return
        texts = [element.text or "" for element in xml.etree.ElementTree.fromstring(drawn.stdout).iter() if element.tag.endswith("text")]
        servers = {step.get("server") or step["ns"] for fault in report["faults"] for walk in fault["walks"] for step in walk}
        queries = {shown(fault["query"]) for fault in report["faults"]}
        yield from (f"{name} isn't drawn" for name in servers if name not in texts)
        yield from (f"{name} isn't asked" for name in queries if not any(text.startswith(name + " ") for text in texts))


def faults_of_loaded_page(text: str) -> Iterator[str]:
    """A page as a browser reads it has the text that the parser reads, and no script."""
    with tempfile.TemporaryDirectory() as folder:
        path = os.path.join(folder, "page.html")
        with open(path, "w", encoding="utf-8") as file:
            file.write(text)
        words = ["chromium", "--headless", "--no-sandbox", "--disable-gpu", f"--user-data-dir={folder}/profile", "--dump-dom", f"file://{path}"]
        loaded = subprocess.run(words, stdin=subprocess.DEVNULL, capture_output=True, timeout=120).stdout.decode()
    ours, theirs = Page(text), Page(loaded)
    if ours.text != theirs.text or [tag for tag in theirs.tags if tag != "tbody"] != ours.tags:
        yield "the browser reads another page"


def faults_of_records(text: str, example: str) -> Iterator[str]:
    """A list of records has lines of the files of an example on which a record of their type stands; and it is what groot-map
    prints, if that is there."""
    for record in text.splitlines():
        _, _, _, rtype, file, number, _ = record.split("\t")
        line = contents(TOP, file).splitlines()[int(number) - 1]
        if not file.startswith(f"examples/{example}/") or rtype not in line.split():
            yield f"records.tsv: no {rtype} at {file}:{number}"
    if shutil.which("groot-map"):
        words = ["groot-map", "records", f"examples/{example}/metadata.json"]
        printed = subprocess.run(words, cwd=TOP, stdin=subprocess.DEVNULL, capture_output=True).stdout.decode()
        yield from (f"records.tsv: {line}" for line in differences(printed, text))


READ_BACK: Dict[str, Callable[[str, Json], Iterator[str]]] = {
    "html": faults_of_html, "junit": faults_of_junit, "sarif": faults_of_sarif, "dot": faults_of_dot}


def faults_of_findings(folder: str) -> Iterator[str]:
    """Findings have one form, each its own key, and the views make the same of them as of the report and the lists."""
    status, text, error = view("findings", folder)
    if status:
        yield f"findings: status {status}: {error}"
        return
    findings = json.loads(text)["findings"]
    for finding in findings:
        if not MEMBERS <= set(finding) or finding["kind"] not in KINDS or (finding["file"], finding["line"]) != (finding["at"][0]["file"], finding["at"][0]["line"]):
            yield f"findings: {finding}"
        elif finding["level"] not in ("error", "warning", "note") or ("entry" in finding) != (finding["from"] == "check"):
            yield f"findings: {finding}"
    if len({finding["key"] for finding in findings}) != len(findings):
        yield "findings: a key stands twice"
    with tempfile.TemporaryDirectory() as made:
        with open(os.path.join(made, "report.json"), "w", encoding="utf-8") as file:
            file.write(text)
        if view("all", made)[1] != view("all", folder)[1]:
            yield "findings: the views make another text of them"


def faults_of_all(folder: str) -> Iterator[str]:
    """all.jq makes what each view alone makes."""
    status, text, error = view("all", folder)
    if status:
        yield f"all: status {status}: {error}"
        return
    made = {name: lines for name, _, lines in (part.partition("\n") for part in text.split("\x1e")[1:])}
    if list(made) != ALL or not text.startswith("\x1e"):
        yield f"all: it makes {list(made)}"
        return
    new = [one for one in json.loads(made["findings"])["findings"] if not one.get("known")]
    if made.pop("new") != f"{len(new)}\n":
        yield "all: it counts wrong"
    for name in made:
        alone = view(name, folder)[1]
        if made[name] != alone and (name not in ("sarif", "findings") or json.loads(made[name]) != json.loads(alone)):
            yield f"all: it makes another {name}"


def ways_it_is_wrong(case: str) -> Iterator[str]:
    """A line for each way in which a view goes another way on a case than the case says."""
    folder = os.path.join(CASES, case)
    report = json.loads(contents(report_of(folder)))
    findings = json.loads(view("findings", folder)[1] or '{"findings":[]}')["findings"]
    report["kinds"] = {finding["kind"] for finding in findings if not finding.get("known")}
    yield from faults_of_findings(folder)
    yield from faults_of_all(folder)
    outs = [file[:-4] for file in sorted(os.listdir(folder)) if file.endswith(".out")]
    if not outs:
        yield "it says nothing of what it expects"
    example = example_of(folder)
    if example:
        yield from faults_of_records(contents(folder, "records.tsv"), example)
    for out in outs:
        name = out.partition("-")[0]
        words = contents(folder, out + ".args").splitlines() if os.path.exists(os.path.join(folder, out + ".args")) else []
        status, text, error = view(name, folder, tuple(words))
        if status:
            yield f"{out}: status {status}: {error}"
        else:
            yield from (f"{out}: {line}" for line in differences(expected(name, contents(folder, out + ".out")), compared(name, text)))
    new = {**report, "faults": [report["faults"][one["entry"] - 1] for one in findings if one["from"] == "check" and not one.get("known")]}
    for name, read_back in READ_BACK.items():
        status, text, error = view(name, folder)
        if status:
            yield f"{name}: status {status}: {error}"
            continue
        try:
            yield from (f"{name}: {line}" for line in read_back(text, report if name == "dot" else new))
            if name == "html" and "html" in outs and shutil.which("chromium"):
                yield from (f"html: {line}" for line in faults_of_loaded_page(text))
        except (ValueError, xml.etree.ElementTree.ParseError, subprocess.TimeoutExpired) as fault:
            yield f"{name}: {fault}"


def refusals() -> Iterator[str]:
    """Each view refuses what is no report, and new.jq does without an older one."""
    with tempfile.TemporaryDirectory() as folder:
        for text in ('{"faults":1}', "[]"):
            with open(os.path.join(folder, "report.json"), "w", encoding="utf-8") as file:
                file.write(text)
            for name in ("findings", "text", "html", "dot", "sarif", "junit", "counts", "prom", "all"):
                view.cache_clear()
                status, out, error = view(name, folder)
                if status == 0 or out or "this is no report of groot check" not in error:
                    yield f"{name}: status {status} for {text}"
        status, _, error = view("new", folder)
        if status == 0 or "--slurpfile old" not in error:
            yield f"new: status {status} without an older report"


def main(words: Sequence[str]) -> int:
    if not shutil.which("jq"):
        print('views/run.py: needs jq on the path (README.md, "Install")', file=sys.stderr)
        return 2
    cases = [case for case in sorted(os.listdir(CASES)) if not words or case in words]
    wrong = 0
    with concurrent.futures.ThreadPoolExecutor(os.cpu_count()) as pool:
        found = list(pool.map(lambda case: list(ways_it_is_wrong(case)), cases))
    for case, lines in [*zip(cases, found), ("refusals", list(refusals()))]:
        if lines:
            wrong += 1
            print(f"WRONG {case}")
            print("".join(f"    {line}\n" for line in lines), end="")
    for tool, what in (("dot", "no graph was drawn"), ("chromium", "no page was loaded"), ("groot-map", "no list of records was compared")):
        if not shutil.which(tool):
            print(f"{what}: {tool} isn't there")
    print(f"views: {len(cases) + 1 - wrong} right, {wrong} wrong")
    return 0 if cases and not wrong else 1


if __name__ == "__main__":
    sys.exit(main(sys.argv[1:]))
