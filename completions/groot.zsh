#compdef groot groot-large groot-map groot-parts groot-metadata groot-gate groot-changed groot-changes groot-split groot-jobs
# Completion of groot, groot-large, groot-map, groot-parts, groot-metadata, groot-gate, groot-changed, groot-changes, groot-split and groot-jobs in zsh;
# it is installed as _groot.

_groot_commands=(
    'check:report every fault that some query shows'
    'ask:print all walks of one query'
    'classes:list the classes of query names'
    'drill:check a made configuration'
    'site:run the checks of this build'
    'recheck:check a report entry by entry'
    'same:say whether any query notices a change'
    'scope:report on the queries at or below a name'
)
_groot_commands_of_large=('scopes:report on the queries at or below each name of a file')
_groot_lists=(
    'records:file and line of each record'
    'reached:rows that a query reaches'
    'targets:targets without an address'
    'delegations:name servers of cuts and origins'
    'copies:zones that differ between servers'
    'servers:names of name servers'
    'aliases:aliases into zones beside'
    'chain:DS records and keys'
)
_groot_types=(A NS CNAME SOA PTR HINFO MX TXT AAAA SRV DNAME CAA)
_groot_limits=(
    '--workers=[how many threads judge]:number (1 to 64):'
    '--classes=[how many names may be told apart]:number:'
    '--rewrites=[how many rewrites a query may use]:number (1 to 64):'
)
_groot_of_metadata=(
    '*--server[a server and where its zones are from]:NAME=KIND\:PATH:'
    '*--by-ns[zone files, each for the servers of its NS records]:FOLDER/%s.zone:_files'
    '*--root[the folder with a copy of the files of a server]:NAME=FOLDER:'
    '*--also[another name of a server]:NAME=OTHER:'
    '*--zone[a zone of a server and its file]:NAME=ZONE\:FILE:'
    '*--zones[for axfr, the names of the zones]:NAME=FILE:'
    '*--catalog[for axfr, a catalog zone]:NAME=ZONE:'
    '*--key[for axfr, a file with the TSIG key]:NAME=FILE:'
    '*--primary[a server that is the primary]:server:'
    '*--top[a server at which queries begin]:server:'
    '*--view[the view of BIND]:view:'
    '*--leave-out[a zone, catalog or database to leave out]:name:'
    '--flatten[where zones are kept that are made]:folder:_files -/'
    '--published[take the file of the primary for secondaries too]'
    '--above[where to make a zone above all zones]:folder:_files -/'
    '--records[the list of groot-map records]:file:_files'
)
_groot_about=('--version[print the version]' '--help[print the options]')

_groot_words() {
    local context state state_descr line
    typeset -A opt_args
    _arguments -C '1:command:->command' '*::operand:->operand'
    case $state in
        command)
            _describe 'command' _groot_commands
            [[ $service != groot-large ]] || _describe 'command' _groot_commands_of_large
            ;;
        operand)
            case $words[1] in
                check) _arguments $_groot_limits '1:metadata:_files' ;;
                classes) _arguments $_groot_limits[2] '1:metadata:_files' ;;
                drill) _arguments $_groot_limits[1] '1:number of zones (1 to 5000):' ;;
                ask) _arguments '1:metadata:_files' '2:name:' "3:type:($_groot_types)" ;;
                site) _arguments '1:metadata:_files' ;;
                recheck) _arguments '1:metadata:_files' '2:report:_files' ;;
                same) _arguments '1:metadata before:_files' '2:metadata after:_files' ;;
                scope) _arguments '1:metadata:_files' '2:name:' ;;
                scopes) _arguments '1:metadata:_files' '2:names:_files' ;;
            esac
            ;;
    esac
}

_groot_map() {
    local context state state_descr line
    typeset -A opt_args
    _arguments -C '1:list:->list' '2:metadata:_files'
    [[ $state != list ]] || _describe 'list' _groot_lists
}

_groot() {
    case $service in
        groot | groot-large) _groot_words ;;
        groot-map) _groot_map ;;
        groot-parts) _arguments '1:word:((part\:"check a part of a network" merge\:"put the reports of parts together"))' '*:file:_files' ;;
        groot-metadata) _arguments $_groot_of_metadata '--output[the metadata file]:file:_files' $_groot_about ;;
        groot-gate)
            _arguments '--old[findings that are known]:findings:_files' \
                '*--off[a kind of findings that is left out]:kind:(alias-differs aliased-name-server answers-differ bad-dnssec-data blackhole copy-differs cyclic-dependency dead-name-server delegation-differs forgotten-row glue-differs lame-delegation misplaced-ds missing-glue no-address no-matching-key overlong rewrite-limit target-without-address unreached-row unsigned-zone)' \
                '*--unasked[a server whose rows no query needs to reach]:server:' \
                '--into[where the files go]:folder:_files -/' \
                '--without-map[do without groot-map]' \
                $_groot_limits $_groot_of_metadata $_groot_about '1:metadata:_files'
            ;;
        groot-changed)
            _arguments '--since[the commit since which files count]:commit:' '--names[print the names of the zones alone]' \
                $_groot_about '1:metadata:_files'
            ;;
        groot-changes)
            _arguments '--without-soa[do not ask for SOA]' '--below[ask for names at or below this one alone]:name:' \
                $_groot_about '1:metadata before:_files' '2:metadata after:_files'
            ;;
        groot-split)
            _arguments '--parts[how many parts]:number:' '--records[about how many records a part has of its own]:number:' \
                '--map[the program groot-map]:program:_files' $_groot_about '1:metadata:_files' '2:folder:_files -/'
            ;;
        groot-jobs)
            _arguments '--engine[what runs the jobs]:engine:(xargs parallel slurm)' '--at-once[at most so many jobs at a time]:number:' \
                '--tries[how often a job is started that fails]:number:' '--memory[with slurm, the memory of a job in MB]:number:' \
                '--resume[keep the reports that are there]' $_groot_about '1:metadata:_files' '2:folder:_files -/'
            ;;
    esac
}

_groot "$@"
