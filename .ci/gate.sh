#!/usr/bin/env bash
# Tries what tools/gate does with its words, its folder, its streams and its signals: gate.sh PROGRAM
#
# PROGRAM is the built groot; groot-map is on the path. Ends with status 1 if a step ends in another way than it should.
what=gate
# shellcheck source=.ci/expect.sh
. "$(dirname "$0")/expect.sh"
need_full_device
install_programs "$1"

# A repository whose metadata stand, and have a second row for a server with a misspelt name.
make_repository words
zone=etc/bind/zones/example.com.zone
cat >metadata.json <<END
{"TopNameServers": ["ns1.example.com."], "ZoneFiles": [
  {"FileName": "$zone", "NameServer": "ns1.example.com.", "Origin": "example.com."}]}
END
gate=(groot-gate metadata.json)

# 1. Targets without an address, and what is known of them.
expect 0 "nothing" "${gate[@]}"
said "nothing found"
echo '@       IN MX    10 gone' >>$zone
expect 1 "a mail host without an address" "${gate[@]}"
said "target-without-address: a record leads to a name that has no address"
said "example.com. MX to gone.example.com., on ns1.example.com. ($zone:11)"
said "1 finding from 1 cause"
said "1 error: 1 target-without-address"
said "metadata.json, 20"
holds report.sarif '.runs[0].results | map(.ruleId) == ["target-without-address"]'
holds report.sarif ".runs[0].results[0].locations[0].physicalLocation | .artifactLocation.uri == \"$zone\" and .region.startLine == 11"
holds findings.json ".findings | length == 1 and (.[0] | .kind == \"target-without-address\" and .level == \"error\" and .from == \"targets\"
    and .place.target == \"gone.example.com.\" and .file == \"$zone\" and .line == 11 and .mend and .key)"
cp groot-report/findings.json ci/one.json
expect 0 "a target that is known" "${gate[@]}" --old ci/one.json
said "nothing new; known: 1; gone: 0"
sed -i '1i ; a line that moves the others' $zone
expect 0 "a target that is known, on another line" "${gate[@]}" --old ci/one.json
echo '_sip._tcp IN SRV 1 2 5060 lost' >>$zone
expect 1 "a new target beside one that is known" "${gate[@]}" --old ci/one.json
said "new: 1 finding from 1 cause; known: 1; gone: 0"
said "_sip._tcp.example.com. SRV to lost.example.com."
unsaid "MX to gone"
holds findings.json '.known == 1 and (.findings | map(.known) == [true, null])'
sed -i '/gone$/d; /lost$/d; /^;/d' $zone
expect 0 "a target that is gone" "${gate[@]}" --old ci/one.json
said "nothing new; known: 0; gone: 1"
for word in targets delegations copies servers; do
    expect 2 "an older option" "${gate[@]}" --old-$word ci/one.json
    said "--old-$word: --old alone does now, with findings.json of an earlier run"
done

# 1a. What no query meets: each mistake once, and none that is known.
# shellcheck disable=SC2317  # it is called by its name
unmet() {
    groot-gate --into "$scratch/unmet" "$top/examples/$1/metadata.json" "${@:2}"
}
# finds EXAMPLE KINDS: the gate finds these kinds in an example, in the order of findings, with a cause for each but for those that follow from another.
finds() {
    jq -e --arg kinds "$2" '[.findings[].kind] == ($kinds | split(" "))' "$scratch/unmet/findings.json" >/dev/null \
        || { fault "$1 hasn't $2"; jq -c '[.findings[].kind]' "$scratch/unmet/findings.json"; }
}
# known_by_itself EXAMPLE WORD..: nothing is new beside the findings of the same run.
known_by_itself() {
    cp "$scratch/unmet/findings.json" ci/known_here.json
    expect 0 "$1, known" unmet "$@" --old ci/known_here.json
}
expect 1 "a name server that vanished" unmet vanished-name-server
finds vanished-name-server "target-without-address"
said "shop.example. NS to ns9.example., on a.nic.example."
known_by_itself vanished-name-server
expect 1 "a delegation that its zone doesn't have" unmet parent-and-child --unasked b.nic.example.
finds parent-and-child "delegation-differs copy-differs"
said "shop.example. NS b.nic.example., on a.nic.example."
said "above a.nic.example. b.nic.example., in the zone itself b.nic.example."
known_by_itself parent-and-child --unasked b.nic.example.
expect 1 "a stale copy and its row that no query reaches" unmet parent-and-child
said "3 findings from 2 causes"
said "copy-differs, unreached-row: a server holds another copy of a zone than the first row of it"
expect 1 "a copy with other records" unmet hidden-primary --unasked hidden.nic.example.
finds hidden-primary "copy-differs"
said "example.: other records than hidden.nic.example., with the same serial 2026112701, on a.nic.example."
sed -i 's/2026112701/2026112601/g' "$scratch/unmet/findings.json"
known_by_itself hidden-primary --unasked hidden.nic.example.
expect 1 "a forgotten row" unmet forgotten-row
finds forgotten-row "forgotten-row"
said "shop.example. NS b.nic.example., on a.nic.example."
known_by_itself forgotten-row
expect 1 "a mail exchange that only a walk out of what is configured may find" unmet lost-mail-exchange
finds lost-mail-exchange "forgotten-row target-without-address"
said "queries: mail2.shop.example. A and AAAA, which end in nxdomain,unhosted"
known_by_itself lost-mail-exchange
expect 1 "a copy that a departed customer left, and an alias into it" unmet departed-customer
finds departed-customer "alias-differs copy-differs unreached-row"
said "3 findings from 1 cause"
said "news.shop.example. to www.blog.example., on b.nic.example. ($top/examples/departed-customer/shop.example.zone:5)"
said "blog.example.: behind c.nic.example.: serial 2025010101, not 2026112701, on b.nic.example."
said "query: www.blog.example. A, at b.nic.example. and from the top servers"
known_by_itself departed-customer
expect 1 "a DS record that matches no key" unmet changed-key
finds changed-key "no-matching-key"
said "1 finding from 1 cause"
said "shop.example.: other keys at b.nic.example., on a.nic.example. ($top/examples/changed-key/example.zone:7)"
known_by_itself changed-key
for example in lame-delegation missing-glue glue-differs delegation-differs answers-differ; do
    expect 1 "$example: told once" unmet $example --unasked ns3.hoster.example.
    jq -e '[.findings[].from] | unique == ["check"]' "$scratch/unmet/findings.json" >/dev/null || fault "$example is told twice"
done
expect 0 "lines that the report tells, and are known there" unmet lame-delegation --old "$top/examples/lame-delegation/report.json"
expect 1 "a target and a dead name server, told once" unmet no-address
jq -e '[.findings[].kind] | unique == ["no-address", "target-without-address"]' "$scratch/unmet/findings.json" >/dev/null || fault "no-address is told twice"

# 1b. Kinds that are left out.
expect 0 "a kind that is left out" unmet forgotten-row --off forgotten-row
said "left out by --off: forgotten-row (1)"
grep -q "left out by --off: forgotten-row (1)" "$scratch/unmet/report.html" || fault "the page doesn't say what was left out"
expect 1 "another kind that is left out" unmet parent-and-child --off=unreached-row --off copy-differs
finds parent-and-child "delegation-differs"
said "left out by --off: unreached-row (1), copy-differs (1)"
cp "$scratch/unmet/findings.json" ci/known_here.json
expect 0 "kinds that are left out, and not gone" unmet parent-and-child --off unreached-row --off copy-differs --off delegation-differs --old ci/known_here.json
said "nothing new; known: 0; gone: 0"
expect 2 "a kind that there isn't" unmet forgotten-row --off copies
said "--off copies: no such kind; there are alias"

# 1c. Above the limits of groot, groot-large checks.
mkdir "$scratch/limited"
printf '%s\n' '#!/bin/sh' 'echo "zones/x.zone:7: too-many-records" >&2' 'exit 3' >"$scratch/limited/groot"
printf '%s\n' '#!/bin/sh' "exec $(command -v groot) \"\$@\"" >"$scratch/limited/groot-large"
chmod +x "$scratch/limited/groot" "$scratch/limited/groot-large"
expect 0 "above the limits of groot" env PATH="$scratch/limited:$PATH" "${gate[@]}"
said "above the limits of groot (zones/x.zone:7: too-many-records), so groot-large checks it"
sed -i 's/too-many-records/bad-address/' "$scratch/limited/groot"
expect 3 "a refusal within the limits" env PATH="$scratch/limited:$PATH" "${gate[@]}"
unsaid "groot-large"

# 2. Without groot-map, or with an older one.
mkdir "$scratch/without" "$scratch/older"
for program in jq groot groot-gate; do
    ln -s "$(command -v $program)" "$scratch/without/$program"
done
ln -s "$(python3 -c 'import sys; print(sys.executable)')" "$scratch/without/python3"
expect 2 "no groot-map" env PATH="$scratch/without" groot-gate metadata.json
said "groot-map isn't on the path"
expect 0 "no groot-map, on purpose" env PATH="$scratch/without" groot-gate metadata.json --without-map
said "without groot-map: only faults that a query meets are looked for, and no fault has a line"
holds findings.json '.findings == []'
printf '#!/bin/sh\necho "usage: groot-map records META | reached META" >&2\nexit 2\n' >"$scratch/older/groot-map"
chmod +x "$scratch/older/groot-map"
expect 2 "an older groot-map" env PATH="$scratch/older:$PATH" groot-gate metadata.json
said "this groot-map has no word delegations"

# 3. The words of the gate, in any order.
expect 4 "a limit of names" "${gate[@]}" --classes 3
said "classes: more than 3"
expect 0 "all limits" "${gate[@]}" --classes=100 --rewrites 3 --workers 1
holds report.json '.rewrites == 3'
for refused in "--off blackholes" "--classes 0" "--rewrites 65" "--workers many" "--unasked a..b" "--classes" "--no-such"; do
    # shellcheck disable=SC2086  # it is two words
    expect 2 "refused: $refused" groot-gate $refused metadata.json
    [ "$(wc -l <"$scratch/said")" -eq 1 ] || { fault "refused: $refused: not one line"; cat "$scratch/said"; }
done
sed -i 's/^shop .*/shop    IN CNAME wwww/' $zone
expect 1 "an alias to no name" "${gate[@]}"
cp groot-report/report.json ci/one.json
expect 0 "a known report behind META" groot-gate metadata.json --old ci/one.json
said "nothing new; known: 1; gone: 0"
cp groot-report/findings.json ci/one.json
expect 0 "known findings behind META" groot-gate metadata.json --old ci/one.json
said "nothing new; known: 1; gone: 0"
sed -i 's/wwww/www/' $zone
expect 0 "a fault that is gone" groot-gate --old ci/one.json metadata.json
said "known: 0; gone: 1"
cp ci/one.json ./-one.json
expect 0 "names of files that begin with a dash" groot-gate metadata.json --old=-one.json --into=-into
rm -r ./-one.json ./-into
mkdir -p far/below
ln -s far/below link
cp ci/one.json far/one.json
expect 0 "paths that go up from where a link leads" groot-gate metadata.json --old link/../one.json --into link/../into
said "known: 0; gone: 1"
[ -f far/into/report.json ] || fault "the folder isn't where the link leads"
rm -r far link
expect 0 "help" groot-gate --help
said "usage: groot-gate [--old FINDINGS]"
sed -i 's/ \]}/ ]}/; s/"example.com."}\]}/"example.com."},\n  {"FileName": "etc\/bind\/zones\/example.com.zone", "NameServer": "ns2.example.com.", "Origin": "example.com."}]}/' metadata.json
expect 1 "a row that no query reaches" "${gate[@]}"
for name in ns2.example.com NS2.Example.COM. 'n\1152\.x.example.com' '\110s2.example.com.'; do
    wanted=0
    case $name in *x*.com) [ "${name#*.x}" = "$name" ] || wanted=1 ;; esac
    expect $wanted "--unasked $name" "${gate[@]}" --unasked "$name"
done

# 4. The folder: files of others stay, and those of a run are whole or not there.
cp ci/known.json report.json
expect 2 "a folder of others" groot-gate --into . --unasked ns2.example.com metadata.json
said "it has files that groot-gate didn't make"
cmp -s ci/known.json report.json || fault "a file of others is changed"
rm report.json
mkdir empty
expect 0 "an empty folder" groot-gate --into empty --unasked ns2.example.com metadata.json
expect 0 "the folder of an earlier run" groot-gate --into empty --unasked ns2.example.com metadata.json
ln -sf ../ci/known.json empty/report.json
expect 2 "a link in the place of a file" groot-gate --into empty --unasked ns2.example.com metadata.json
said "it is no regular file"
cmp -s "$top/examples/own-servers/report.json" ci/known.json || fault "the file behind a link is changed"
rm empty/report.json
mkfifo empty/report.json
expect 2 "a pipe in the place of a file" groot-gate --into empty --unasked ns2.example.com metadata.json
rm empty/report.json
sed -i '/ns2/d; s/"example.com."},$/"example.com."}]}/' metadata.json
(umask 027 && groot-gate --into modes metadata.json >/dev/null 2>&1)
[ "$(stat -c %a modes/report.json)" = 640 ] || fault "the mode of a file isn't that of the umask"
expect 8 "files of at most 512 octets" bash -c 'ulimit -f 1; trap "" XFSZ; exec groot-gate --into small metadata.json'
said "views/all.jq was ended by signal 25"
[ -z "$(find small -name 'report.html*' -o -name '*.part')" ] || fault "part of a file is left"

# A stand-in for groot that waits, and says so.
mkdir "$scratch/slow"
cat >"$scratch/slow/groot" <<END
#!/bin/sh
echo \$\$ >$scratch/slow/pid
printf '{"classes":'
exec sleep 60
END
chmod +x "$scratch/slow/groot"
for signal in TERM INT; do
    rm -f "$scratch/slow/pid"
    PATH="$scratch/slow:$PATH" env --default-signal=INT groot-gate --into stopped metadata.json >"$scratch/said" 2>&1 &
    run=$!
    for _ in $(seq 300); do
        [ -s "$scratch/slow/pid" ] && break
        sleep 0.1
    done
    expect 2 "a second run in one folder" groot-gate --into stopped metadata.json
    said "another groot-gate is at work there"
    kill -s "$signal" "$run"
    wait "$run"
    status=$?
    [ "$status" -eq $((128 + $(kill -l "$signal"))) ] || fault "ended by $signal: status $status"
    ! kill -0 "$(cat "$scratch/slow/pid")" 2>/dev/null || fault "ended by $signal: groot runs on"
    [ -z "$(find stopped -name '*.part' -o -name report.json)" ] || fault "ended by $signal: part of a report is left"
done

# 5. The streams.
expect 8 "a full output" bash -c 'groot-gate metadata.json >/dev/full'
said "the standard output: No space left on device"
expect 8 "a closed output" bash -c 'groot-gate metadata.json >&-'
said "the standard output: it is closed"
# shellcheck disable=SC2016  # the status is that of the inner shell
expect 0 "a broken output" bash -c '{ groot-gate metadata.json; echo "status $?" >&2; } | true'
said "status 8"
said "the standard output: Broken pipe"
expect 0 "a closed error" bash -c 'groot-gate metadata.json 2>&-'
expect 0 "a full error" bash -c 'groot-gate metadata.json 2>/dev/full'
expect 8 "help for a full output" bash -c 'groot-gate --help >/dev/full'
printf '%s\n' "#!/bin/sh" "cat" "exec $(command -v groot) \"\$@\"" >"$scratch/slow/groot"
echo "what is left" >"$scratch/input"
# shellcheck disable=SC2016
expect 0 "no input for what the gate runs" bash -c 'PATH="$1:$PATH"; { groot-gate metadata.json && cat; } <"$2"' - "$scratch/slow" "$scratch/input"
said "what is left"

# 5a. A terminal shows what runs, how long and with how much memory; nothing else does.
if command -v script >/dev/null; then
    printf '%s\n' "#!/bin/sh" "sleep 0.5" "exec $(command -v groot) \"\$@\"" >"$scratch/slow/groot"
    expect 0 "a terminal" env PATH="$scratch/slow:$PATH" script -qec "groot-gate metadata.json" /dev/null
    tr '\r' '\n' <"$scratch/said" >"$scratch/shown"
    grep -qE '^.\[Kgate: 0 s, [0-9]+ MiB: groot check' "$scratch/shown" || { fault "a terminal doesn't show what runs"; cat -v "$scratch/shown"; }
    grep -qE '^.\[Knothing found' "$scratch/shown" || fault "a terminal keeps what ran"
else
    echo "gate: script isn't there (Debian: bsdutils), so what a terminal shows isn't tried"
fi
expect 0 "no terminal" env PATH="$scratch/slow:$PATH" "${gate[@]}"
unsaid "MiB"

# 6. What the log says of names.
odd=$(printf 'zones \033[31m\342\200\256/x.zone')
mkdir "${odd%/*}"
cp $zone "$odd"
printf '%s\n' '::error::x IN CNAME nowhere' '@ IN MX 10 ::stop-commands::y' >>"$odd"
sed "s#$zone#$(printf 'zones \\\\u001b[31m\\\\u202e/x.zone')#" metadata.json >odd.json
expect 1 "names that a terminal and a runner obey" groot-gate --into odd odd.json
said "::error::x.example.com. to nowhere.example.com."
! grep -q "$(printf '\033\\|\342\200\256')" "$scratch/said" || fault "the log has what a terminal obeys"
! grep -q '^ *::' "$scratch/said" || fault "the log has what a runner obeys"
echo 'broken' >>"$odd"
expect 3 "a refused file with such a name" groot-gate --into odd odd.json
! grep -q "$(printf '\033\\|\342\200\256')" "$scratch/said" || fault "the log has what a terminal obeys"

# 7. Many faults: the log has the first lines, and the files have all.
make_repository many
mkdir -p "$scratch/stub" flat
jq -c '.faults[0] as $one | .faults = [range(5100) | . as $at | (. / 17 | floor) as $zone | $one | .place.owner = "a\($at).example."
    | .place.zone = "z\($zone).example." | .walks[0][0].to = "b\($zone).example."]' "$top/examples/blackhole/report.json" >"$scratch/stub/report"
cat >"$scratch/stub/groot" <<END
#!/bin/sh
cat $scratch/stub/report
exit 1
END
chmod +x "$scratch/stub/groot"
cp "$top/examples/own-servers/zones/example.com.zone" flat/x.zone
echo '{"TopNameServers": ["ns1.example.com."], "ZoneFiles": [{"FileName": "flat/x.zone", "NameServer": "ns1.example.com.", "Origin": "example.com."}]}' >metadata.json
expect 1 "three hundred causes" env PATH="$scratch/stub:$PATH" groot-gate metadata.json
said "more lines: groot-report/report.txt"
[ "$(wc -l <"$scratch/said")" -le 200 ] || fault "the log has more than 200 lines"
[ "$(wc -l <groot-report/report.txt)" -gt 6000 ] || fault "report.txt hasn't all lines"
said "report.sarif has 5000 of 5100 places"
holds report.sarif '.runs[0].results | length == 5000'

# 8. A file that was written out: what is said is of the operator's file and line.
printf '%s\n' 'old     IN CNAME nowhere' 'h1      IN CNAME gone1' 'h2      IN CNAME gone2' '@       IN MX    10 lost' >>flat/x.zone
printf '%s\n' "groot-metadata lines 1" "1	11	1	1	$PWD/etc/x.zone" "12	13	12	0	$PWD/etc/x.zone" "14	20	13	1	$PWD/etc/x.zone" >flat/x.zone.lines
expect 1 "lines that were written out" groot-gate metadata.json
said "old.example.com. to nowhere.example.com., on ns1.example.com. (etc/x.zone:11)"
said "h1.example.com. to gone1.example.com., on ns1.example.com. (etc/x.zone:12)"
said "h2.example.com. to gone2.example.com., on ns1.example.com. (etc/x.zone:12)"
said "example.com. MX to lost.example.com., on ns1.example.com. (etc/x.zone:13)"
holds report.sarif '[.runs[0].results[].locations[0].physicalLocation.artifactLocation.uri] | unique == ["etc/x.zone"]'
echo 'broken' >>flat/x.zone
expect 3 "a refused line that was copied" groot-gate metadata.json
said "$PWD/etc/x.zone:14: no-type (written out as flat/x.zone:15)"

# shellcheck disable=SC2154  # expect.sh sets it
[ "$wrong" -ne 0 ] || echo "gate: its words, its folder, its streams, its signals and its log are as they should be"
exit "$wrong"
