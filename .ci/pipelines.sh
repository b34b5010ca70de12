#!/usr/bin/env bash
# Tries tools/gate, the pipelines, hooks, service and image that call it, tools/changed and tools/changes, on repositories made of
# examples/own-servers:
# pipelines.sh PROGRAM
#
# PROGRAM is the built groot; groot-map is on the path. The lines of the pipelines run as they stand, with
# stand-ins for what only a runner has. Ends with status 1 if a step ends in another way than it should.
what=pipelines
# shellcheck source=.ci/expect.sh
. "$(dirname "$0")/expect.sh"
need_full_device
install_programs "$1"

# Stand-ins for the programs of a runner.
mkdir "$scratch/runner" "$scratch/bare"
for tool in apt-get dpkg ln mkdir sudo; do
    printf '#!/bin/sh\necho "%s $*" >>"%s/runner/said"\n' "$tool" "$scratch" >"$scratch/runner/$tool"
done
# shellcheck disable=SC2016  # these are the lines of a script
printf '#!/bin/sh\ncat "${2#/}"\n' >"$scratch/runner/named-checkconf"
# curl writes the package, whose sum the lines of the pipelines compare
# shellcheck disable=SC2016
printf '#!/bin/sh\nwhile [ "$1" != --output ]; do shift; done\necho package >"$2"\n' >"$scratch/runner/curl"
chmod +x "$scratch"/runner/*
ln -s "$(python3 -c 'import sys; print(sys.executable)')" "$scratch/bare/python3"
command -v named-checkconf >/dev/null \
    || echo "pipelines: named-checkconf isn't there (Debian: bind9-utils), so the gate reads the configuration as printed"

# name_server: the options for the server of the repository, in the array server.
name_server() {
    if command -v named-checkconf >/dev/null; then
        sed -i "s#/etc/bind#$repository/etc/bind#" etc/bind/named.conf
        server=(--server ns1.example.com.=bind:etc/bind/named.conf)
    else
        server=(--server ns1.example.com.=bind-printed:etc/bind/named.conf --root ns1.example.com.="$repository")
    fi
}

# 1. The steps of the gate: make metadata, check, new faults only, SARIF, fail.
make_repository steps
name_server
steps=(groot-gate --old ci/known.json metadata.json "${server[@]}")
zone=etc/bind/zones/example.com.zone
expect 0 "no fault" "${steps[@]}"
said "nothing new; known: 0; gone: 0"
said "(7 names, 14 classes, at most 12 rewrites)"
holds report.sarif '.runs[0].results == []'

sed -i 's/^shop .*/shop    IN CNAME wwww/' $zone
expect 1 "an alias to no name" "${steps[@]}"
said "shop.example.com. to wwww.example.com."
said "new: 1 finding from 1 cause; known: 0; gone: 0"
holds report.sarif '.runs[0].results | length == 1 and .[0].ruleId == "blackhole"'

cp groot-report/findings.json ci/known.json
expect 0 "a fault that is known" "${steps[@]}"
said "nothing new; known: 1; gone: 0"

echo 'old     IN CNAME gone' >>$zone
expect 1 "a new fault beside one that is known" "${steps[@]}"
said "old.example.com. to gone.example.com."
holds findings.json '.findings | map(.known) | sort == [null, true]'
holds report.json '.faults | length == 2'
cp groot-report/findings.json ci/both.json
holds report.sarif ".runs[0].results[0].locations[0].physicalLocation | .artifactLocation.uri == \"$zone\" and .region.startLine == 11"

expect 2 "known findings over which the run writes" groot-gate --old groot-report/findings.json metadata.json
expect 2 "no known report" groot-gate --old ci/nothing.json metadata.json
echo '{}' >ci/empty.json
expect 8 "a known report that is none" groot-gate --old ci/empty.json metadata.json
expect 2 "no word" groot-gate
expect 2 "no program" env PATH="$scratch/bare" "$top/tools/gate" metadata.json
said "groot isn't on the path"
[ ! -e groot-report/report.json ] || fault "an old report is left where a program is missing"

cp ci/both.json ci/known.json
expect 0 "another name of a server" "${steps[@]}" --also ns1.example.com.=ns1.exmaple.com. --top ns1.example.com.
twin=("${steps[@]}" --zone ns1.exmaple.com.=example.com.:"$zone" --top ns1.example.com.)
expect 1 "a row that no query reaches" "${twin[@]}"
said "ns1.exmaple.com.: example.com.: no query reaches this row"
said "unreached-row: no query reaches a row of the metadata"
expect 1 "the same with metadata that stand" groot-gate --old ci/known.json metadata.json
said "row 2, zone example.com., on ns1.exmaple.com. (etc/bind/zones/example.com.zone:1)"
expect 0 "a row that no query needs to reach" groot-gate --unasked ns1.exmaple.com "${twin[@]:1}"

sed -i 's/^mail .*/mail    IN A     192.0.2.256/' $zone
expect 3 "a zone file that is refused" "${steps[@]}"
said "$zone:7: bad-address"
[ ! -e groot-report/report.sarif ] || fault "an old report is left"
rm $zone
expect 2 "no zone file" "${steps[@]}"
said "no metadata, so nothing was checked"

# With a zone above that is made, what leads out of the zones is no fault, and delegations are checked.
make_repository above
name_server
printf '%s\n' 'office  IN CNAME autodiscover.outlook.com.' 'old     IN DNAME elsewhere.example.' >>$zone
expect 0 "aliases that leave the zones" groot-gate metadata.json "${server[@]}" --above above
said "nothing found"
holds report.json '.names == 19'
echo '@       IN NS    ns2' >>$zone
expect 1 "a name server without an address" groot-gate metadata.json "${server[@]}" --above above
said "missing-glue"
holds report.json '.faults | map(.kind) == ["missing-glue"]'

# 2. The lines of the pipelines, as their runners run them.
make_repository runner
# shellcheck disable=SC2317  # it is called by its name
github() {
    awk '/^ *run: [|]$/ { inside = 1; next } inside && !/^          / { inside = 0 } inside { print substr($0, 11) }' \
        "$top/tools/pipelines/github-actions.yml"
}
# shellcheck disable=SC2317
gitlab() {
    awk '/^  script:$/ { inside = 1; next } inside && !/^    / { exit }
         inside { printf "%s%s", (count++ == 0 ? "" : substr($0, 5, 1) == "-" ? "\n" : " "), substr($0, 7) }
         END { print "" }' \
        "$top/tools/pipelines/gitlab-ci.yml"
}
# as_yaml FOLDER: the files, read as YAML, have the lines of github.sh and gitlab.sh in the folder, and steps of the known form.
# shellcheck disable=SC2317
as_yaml() {
    python3 - "$top/tools/pipelines" "$1" <<'EOF'
import pathlib
import re
import sys
import yaml

files, lines = map(pathlib.Path, sys.argv[1:])
github = yaml.safe_load((files / "github-actions.yml").read_text())
gitlab = yaml.safe_load((files / "gitlab-ci.yml").read_text())
[job] = github["jobs"].values()
assert set(github) == {"name", True, "permissions", "env", "jobs"} and set(job) == {"runs-on", "steps"}  # YAML 1.1 takes `on` for true
assert all(("uses" in step) != ("run" in step) for step in job["steps"])
assert all(re.fullmatch(r"[\w-]+(/[\w-]+)+@[0-9a-f]{40}", step["uses"]) for step in job["steps"] if "uses" in step)  # by commit
assert set(github["env"]) == {"GROOT_DEB", "GROOT_SHA256"} and all(isinstance(value, str) for value in github["env"].values())
assert set().union(*job["steps"]) <= {"name", "uses", "run", "if", "with", "continue-on-error"}
assert "".join(step.get("run", "") for step in job["steps"]) == (lines / "github.sh").read_text()
[(_, job)] = gitlab.items()
assert job["variables"] == github["env"]
assert set(job) == {"image", "variables", "script", "artifacts"} and set(job["artifacts"]) == {"when", "paths", "reports"}
assert "".join(line + "\n" for line in job["script"]) == (lines / "gitlab.sh").read_text().lstrip("\n")
EOF
}
# shellcheck disable=SC2317
jenkins() {
    awk -v quotes="'''" 'inside && $1 == quotes { exit } inside { print } index($0, "sh " quotes) { inside = 1 }' "$top/tools/pipelines/Jenkinsfile"
}
# by_link: the lines of docs/PIPELINES.md for a named.conf that the runner reads.
# shellcheck disable=SC2317
by_link() {
    awk '/^If `named.conf` can be read on the runner/ { found = 1 } found && /^```$/ { if (inside) exit; inside = 1; next } inside' \
        "$top/docs/PIPELINES.md"
}
for pipeline in github gitlab jenkins by_link; do
    "$pipeline" >"$scratch/$pipeline.sh"
done
if python3 -c 'import yaml' 2>/dev/null; then
    expect 0 "the files of the pipelines as YAML" as_yaml "$scratch"
else
    echo "pipelines: PyYAML isn't there (Debian: python3-yaml), so the files of the pipelines aren't read as YAML"
fi
if command -v groovyc >/dev/null; then
    expect 0 "the Jenkinsfile as Groovy" groovyc -d "$scratch/groovy" "$top/tools/pipelines/Jenkinsfile"
else
    echo "pipelines: groovyc isn't there (Debian: groovy), so the Jenkinsfile isn't read as Groovy; its brackets are counted"
    [ "$(tr -cd '{[(' <"$top/tools/pipelines/Jenkinsfile" | wc -c)" -eq "$(tr -cd '}])' <"$top/tools/pipelines/Jenkinsfile" | wc -c)" ] \
        || fault "Jenkinsfile: a bracket is open"
fi
sum=$(echo package | sha256sum)
for pipeline in github gitlab jenkins by_link; do
    run=(env PATH="$scratch/runner:$PATH" RUNNER_TEMP="$scratch/runner" GROOT_DEB=https://downloads.example.com/groot.deb
        GROOT_SHA256="${sum%% *}" bash --noprofile --norc -e -o pipefail "$scratch/$pipeline.sh")
    cp "$top/examples/own-servers/zones/example.com.zone" etc/bind/zones/
    rm -f "$scratch/runner/said"
    expect 0 "$pipeline: no fault" "${run[@]}"
    said "nothing new"
    [ "$pipeline" = jenkins ] || grep -q "dpkg --install .*groot.deb\|/etc/bind" "$scratch/runner/said" || fault "$pipeline prepares nothing"
    sed -i 's/^shop .*/shop    IN CNAME wwww/' $zone
    expect 1 "$pipeline: a new fault" "${run[@]}"
    sed -i 's/wwww/www/; $a @ IN MX 10 gone' $zone
    expect 1 "$pipeline: a mail host without an address" "${run[@]}"
    said "MX to gone.example.com."
    sed -i 's/^mail .*/mail    IN A     192.0.2.256/' $zone
    expect 3 "$pipeline: a refused file" "${run[@]}"
    if [[ $pipeline == git* ]]; then
        rm "$scratch/runner/said"
        expect 1 "$pipeline: another package" "${run[@]:0:4}" GROOT_SHA256="${sum//[0-9]/0}" "${run[@]:5}"
        said "FAILED"
        ! grep -q "dpkg" "$scratch/runner/said" || fault "$pipeline installs a package whose sum is another"
    fi
done

# 3. The hook: what is committed counts, not what stands in the folder.
make_repository hook
git init -q .
cp "$top/tools/pipelines/pre-commit" .git/hooks/
commit=(git -c user.name=operator -c user.email=operator@example.com commit -q -m change)
git add .
expect 0 "hook: a commit without a fault" "${commit[@]}"
sed -i 's/^shop .*/shop    IN CNAME wwww/' $zone
git add .
expect 1 "hook: a commit with a fault" "${commit[@]}"
said "shop.example.com. to wwww.example.com."
git checkout -q HEAD -- $zone
echo '@       IN MX    10 gone' >>$zone
git add .
expect 1 "hook: a commit of a mail host without an address" "${commit[@]}"
said "example.com. MX to gone.example.com."
git checkout -q HEAD -- $zone
echo '; a comment' >>$zone
git add .
sed -i 's/^shop .*/shop    IN CNAME wwww/' $zone
expect 0 "hook: a fault that isn't committed" "${commit[@]}"
[ -z "$(git status --porcelain -- groot-report metadata.json)" ] || fault "the hook leaves files"

# 4. The hook of pre-commit, in its own words: with --root, as there the configuration is one that a server printed.
make_repository framework
cat >"$scratch/framework.py" <<'EOF'
import pathlib
import subprocess
import sys
import yaml

[hook] = yaml.safe_load(pathlib.Path(sys.argv[1]).read_text())
assert set(hook) == {"id", "name", "description", "entry", "language", "args", "pass_filenames", "always_run", "minimum_pre_commit_version"}
assert hook["language"] == "system" and hook["pass_filenames"] is False and hook["always_run"] is True
sys.exit(subprocess.run([*hook["entry"].split(), *(sys.argv[2:] or hook["args"])], check=False).returncode)
EOF
hook=(python3 "$scratch/framework.py" "$top/.pre-commit-hooks.yaml")
more=(--old ci/known.json metadata.json --server ns1.example.com.=bind-printed:ci/named.printed --root ns1.example.com.=.)
if python3 -c 'import yaml' 2>/dev/null; then
    expect 0 "pre-commit: no fault" "${hook[@]}" "${more[@]}"
    said "nothing new"
    expect 0 "pre-commit: no other words" "${hook[@]}"
    sed -i 's/^shop .*/shop    IN CNAME wwww/' $zone
    expect 1 "pre-commit: a new fault" "${hook[@]}" "${more[@]}"
else
    echo "pipelines: PyYAML isn't there (Debian: python3-yaml), so the hook of pre-commit isn't run"
fi
if command -v pre-commit >/dev/null; then
    git init -q .
    git add .
    expect 0 "pre-commit takes the list of hooks" pre-commit validate-manifest "$top/.pre-commit-hooks.yaml"
else
    echo "pipelines: pre-commit isn't there, so its own check of the list of hooks isn't run"
fi

# 5. The service, as systemd runs its lines, and its metrics.
make_repository service
# line_of NAME: the words of a line of the service, with the programs of this copy.
line_of() {
    sed -n ':a; /\\$/ { N; s/\\\n *//; ba; }; s#^'"$1"'=##p' "$top/tools/pipelines/groot.service" \
        | sed "s#/usr/local/bin/#$scratch/bin/#; s#/usr/local/share/groot#$top#; s#/etc/bind#$repository/etc/bind#; s#/var/lib/prometheus/node-exporter#$scratch#"
}
read -ra start <<<"$(line_of ExecStart)"
read -ra stop <<<"$(line_of ExecStopPost)"
cp ci/known.json .
if ! command -v named-checkconf >/dev/null; then
    start=("${start[@]/=bind:*/=bind-printed:ci/named.printed}" --root ns1.example.com.=.)
else
    sed -i "s#/etc/bind#$repository/etc/bind#" etc/bind/named.conf
fi
# metrics_have LINE: the file of metrics has the line, and each line of it has the form of the collector.
metrics_have() {
    grep -qxE -- "$1" "$scratch/groot.prom" || { fault "the metrics have no $1"; cat "$scratch/groot.prom"; }
    ! grep -vxE '# (HELP [a-z_]+ .*|TYPE [a-z_]+ gauge)|[a-z_]+(\{([a-z]+="([^"\\]|\\.)*",?)+\})? -?[0-9]+' "$scratch/groot.prom" \
        || fault "the metrics have lines of another form"
}
command -v promtool >/dev/null \
    || echo "pipelines: promtool isn't there (Debian: prometheus), so the metrics are compared by the form of their lines alone"
# shellcheck disable=SC2317
by_promtool() {
    ! command -v promtool >/dev/null || promtool check metrics <"$scratch/groot.prom"
}
expect 0 "service: no fault" "${start[@]}"
expect 0 "service: metrics of no fault" env EXIT_STATUS=0 "${stop[@]}"
metrics_have 'groot_all_faults 0'
metrics_have 'groot_status 0'
expect 0 "promtool: metrics of no fault" by_promtool
sed -i 's/^shop .*/shop    IN CNAME wwww/' $zone
expect 1 "service: a new fault" "${start[@]}"
expect 0 "service: metrics of a fault" env EXIT_STATUS=1 "${stop[@]}"
metrics_have 'groot_faults\{kind="blackhole",zone="example.com."\} 1'
metrics_have 'groot_status 1'
metrics_have "groot_last_run_timestamp_seconds $(date +%s | cut -c1-7)[0-9]*"
expect 0 "promtool: metrics of a fault" by_promtool
expect 0 "service: metrics of a run without a report" env EXIT_STATUS=3 "${stop[@]}"
metrics_have 'groot_status 3'
! grep -q groot_faults "$scratch/groot.prom" || fault "metrics of an older report"
expect 0 "service: metrics of a run that was killed" env EXIT_STATUS=KILL "${stop[@]}"
metrics_have 'groot_status -1'
echo '{}' >groot-report/findings.json
expect 5 "service: no report, though the status says so" env EXIT_STATUS=1 "${stop[@]}"
metrics_have 'groot_status -1'
[ "$(find "$scratch" -maxdepth 1 -name 'groot.prom*')" = "$scratch/groot.prom" ] || fault "a part of the metrics is left"
expect 2 "service: metrics without a folder" "${stop[0]}"

# 6. The image: its lines with stand-ins, and built if an engine runs here.
make_repository image
awk '/^RUN / { sub(/^RUN /, ""); inside = 1 } inside { print } inside && !/\\$/ { exit }' "$top/tools/pipelines/Containerfile" >"$scratch/image.sh"
rm -f "$scratch/runner/said"
printf '#!/bin/sh\necho "rm $*" >>"%s/runner/said"\n' "$scratch" >"$scratch/runner/rm"
chmod +x "$scratch/runner/rm"
expect 0 "the lines of the image" env PATH="$scratch/runner:$PATH" sh -e "$scratch/image.sh"
for package in bind9 bind9-dnsutils bind9-utils git jq knot nsd python3 /tmp/groot.deb; do
    grep -q "apt-get install .* $package\( \|$\)" "$scratch/runner/said" || fault "the image has no $package"
done
rm "$scratch/runner/rm"
awk '/^[A-Z]+ / { print $1 } /^[^A-Z# ]/ { print "?" }' "$top/tools/pipelines/Containerfile" | tr '\n' ' ' >"$scratch/said"
said "FROM COPY RUN WORKDIR CMD "
engine=$(command -v podman || command -v docker)
if [ -z "$engine" ] || ! "$engine" info >/dev/null 2>&1; then
    echo "pipelines: no engine for containers runs here (podman, docker), so the image isn't built"
elif ! command -v dpkg-deb >/dev/null; then
    echo "pipelines: dpkg-deb isn't there, so the image isn't built"
else
    "$top/install" --deb "$scratch/groot.deb" --program "$(realpath "$scratch/bin/groot")" --map "$(realpath "$(command -v groot-map)")" >/dev/null
    mkdir "$scratch/context"
    mv "$scratch/groot.deb" "$scratch/context"
    cp "$top/tools/pipelines/Containerfile" "$scratch/context"
    expect 0 "the image is built" "$engine" build --quiet --tag groot-of-the-case --file "$scratch/context/Containerfile" "$scratch/context"
    expect 0 "the image has groot-gate" "$engine" run --rm groot-of-the-case groot-gate --version
fi

# 7. The scopes of the zones that a change touches, in a repository whose folder and files have any names.
make_repository 'changed & |more'
# scopes_are COUNT: the last command printed the reports of so many scopes.
scopes_are() {
    [ "$(grep -c '"scope":' "$scratch/said")" -eq "$1" ] || { fault "groot-changed: not $1 scopes"; cat "$scratch/said"; }
}
odd="etc/bind/zones/käse & co|x.zone"
cp "$zone" "$odd"
echo 'shared  IN A 192.0.2.77' >etc/bind/zones/more.inc
echo "\$INCLUDE etc/bind/zones/more.inc" >>"$odd"
cat >metadata.json <<EOF
{"TopNameServers": ["ns1.example.com."], "ZoneFiles": [
  {"FileName": "$zone", "NameServer": "ns1.example.com.", "Origin": "example.com."},
  {"FileName": "$odd", "NameServer": "ns1.example.com.", "Origin": "-x.example.org."}]}
EOF
git init -q .
git add .
expect 0 "changed: a commit" "${commit[@]}"
git update-ref refs/remotes/origin/main HEAD
awk '/^For the zones whose files a change touches/ { found = 1 } found && /^```$/ { if (inside) exit; inside = 1; next } inside' \
    "$top/docs/COMMANDS.md" >"$scratch/changed.sh"
run=(bash --noprofile --norc -e -o pipefail "$scratch/changed.sh")
expect 0 "changed: no file" "${run[@]}"
scopes_are 0
echo 'news    IN CNAME www' >>$zone
expect 0 "changed: a file without a fault" "${run[@]}"
said '"faults":[]'
said '"scope":"example.com."'
scopes_are 1
git checkout -q -- .
sed -i 's/^shop .*/shop    IN CNAME wwww/' "$odd"
echo text >readme
expect 1 "changed: a file whose name git quotes, with a fault" "${run[@]}"
said '"query":"shop.-x.example.org."'
said 'no zone of META is read from them: readme'
scopes_are 1
git checkout -q -- .
echo 'gone    IN CNAME nowhere' >>etc/bind/zones/more.inc
git config diff.relative true
expect 1 "changed: an included file, from a folder below" env -C etc groot-changed --since origin/main ../metadata.json
said '"query":"gone.-x.example.org."'
git checkout -q -- .
mkdir flat
cp $zone flat/x.zone
printf '%s\n' "groot-metadata lines 1" "1	99	1	1	$PWD/$zone" >flat/x.zone.lines
sed "s#$zone#flat/x.zone#" metadata.json >flat.json
expect 0 "changed: a written-out text, whose file stands" groot-changed flat.json
scopes_are 0
echo '; a comment' >>$zone
expect 0 "changed: the file of a written-out text" groot-changed flat.json
scopes_are 1
echo 'gone    IN CNAME nowhere' >>etc/bind/zones/more.inc
expect 0 "changed: the names of zones" groot-changed --names metadata.json
said '-x.example.org.'
expect 6 "changed: a full output" bash -c 'groot-changed metadata.json >/dev/full'
said "the standard output: No space left on device"
expect 6 "changed: a closed output" bash -c 'groot-changed metadata.json >&-'
expect 2 "changed: no such commit" groot-changed --since nowhere metadata.json
said "changed: git failed; run it in a clone with its history"
expect 2 "changed: no word" groot-changed
echo 'broken' >>"$odd"
expect 3 "changed: a refused file" groot-changed metadata.json

# 8. What queries notice of a change: a name that goes below a wildcard, by itself, and as one of several.
make_repository changes
differ=("$top/examples/differ/before/metadata.json" "$top/examples/differ/after/metadata.json")
all_types="A NS CNAME SOA PTR HINFO MX TXT AAAA SRV DNAME CAA"
expect 1 "changes: a record less" groot-changes "${differ[@]}"
printf '%s\t%s\t%s\n' exact shop.example. A below shop.example. "$all_types" exact mail.shop.example. A below mail.shop.example. "$all_types" \
    | cmp -s - "$scratch/said" || { fault "groot-changes: other names or types"; cat "$scratch/said"; }
expect 1 "changes: below a name, without SOA" groot-changes --without-soa --below MAIL.shop.example "${differ[@]}"
printf '%s\t%s\t%s\n' exact mail.shop.example. A below mail.shop.example. "${all_types/SOA /}" \
    | cmp -s - "$scratch/said" || { fault "groot-changes: other names or types below a name"; cat "$scratch/said"; }
expect 0 "changes: none below a name" groot-changes --below www.example. "${differ[@]}"
expect 0 "changes: none" groot-changes "$top/examples/same/before/metadata.json" "$top/examples/same/after/metadata.json"
[ ! -s "$scratch/said" ] || { fault "groot-changes: no change is told"; cat "$scratch/said"; }
echo "{\"TopNameServers\": [\"ns1.example.com.\"], \"ZoneFiles\": [{\"FileName\": \"$zone\", \"NameServer\": \"ns1.example.com.\", \"Origin\": \"example.com.\"}]}" >one.json
mkdir -p other/etc/bind/zones
printf '%s\n' '-x A 192.0.2.1' 'y\.z A 192.0.2.2' >>$zone
sed 's/192.0.2.2$/192.0.2.3/; s/^-x .*/-x A 192.0.2.9/' $zone >other/$zone
awk '!done && match($0, /[0-9][0-9][0-9][0-9][0-9][0-9][0-9][0-9][0-9][0-9]/) { sub(/[0-9]+/, "2030010101", $0); done = 1 } { print }' other/$zone >other/raised
mv other/raised other/$zone
cp one.json other/
expect 1 "changes: odd names behind a raised serial" groot-changes --without-soa one.json other/one.json
printf 'exact\t%s\tA\n' -x.example.com. 'y\.z.example.com.' | cmp -s - "$scratch/said" || { fault "groot-changes: odd names"; cat "$scratch/said"; }
expect 1 "changes: a raised serial" groot-changes --below example.com. one.json other/one.json
said "exact	example.com.	SOA"
expect 6 "changes: a full output" bash -c 'groot-changes one.json other/one.json >/dev/full'
expect 6 "changes: a closed output" bash -c 'groot-changes one.json other/one.json >&-'
expect 2 "changes: one word" groot-changes one.json
expect 2 "changes: no name" groot-changes --below a..b one.json other/one.json
echo 'broken' >>other/$zone
expect 3 "changes: a refused file" groot-changes one.json other/one.json
said "other/$zone"

[ $wrong -ne 0 ] || echo "pipelines: the gate, the lines of all pipelines, the hooks, the service, the image, groot-changed and groot-changes end as they should"
exit $wrong
