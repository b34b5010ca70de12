# Completion of groot, groot-large, groot-map, groot-parts, groot-metadata, groot-gate, groot-changed, groot-changes, groot-split
# and groot-jobs in bash.

# The options of a command.
_groot_options() {
    case $1 in
        check) echo --workers --classes --rewrites ;;
        classes) echo --classes ;;
        drill) echo --workers ;;
    esac
}

# How many operands stand between the command and the word at the cursor.
_groot_operands() {
    local place operands=0
    for ((place = 2; place < COMP_CWORD; place++)); do
        case ${COMP_WORDS[place]} in
            -*) [[ ${COMP_WORDS[place + 1]} == = ]] && ((place++)); ((place++)) ;;
            *) ((operands++)) ;;
        esac
    done
    echo "$operands"
}

_groot_files() {
    compopt -o filenames 2>/dev/null
    mapfile -t COMPREPLY < <(compgen -f -- "$1")
}

_groot() {
    local word=${COMP_WORDS[COMP_CWORD]} before=${COMP_WORDS[COMP_CWORD - 1]} command=${COMP_WORDS[1]} words=
    COMPREPLY=()
    if ((COMP_CWORD == 1)); then
        words="check ask classes drill site recheck same scope"
        [[ ${COMP_WORDS[0]##*/} != groot-large ]] || words+=" scopes"
    elif [[ $before == -* || $before == = ]]; then
        return
    elif [[ $word == -* ]]; then
        words=$(_groot_options "$command")
    else
        case $command:$(_groot_operands) in
            check:0 | classes:0 | ask:0 | site:0 | recheck:[01] | same:[01] | scope:0 | scopes:[01]) _groot_files "$word" ; return ;;
            ask:2) words="A NS CNAME SOA PTR HINFO MX TXT AAAA SRV DNAME CAA" ;;
        esac
    fi
    mapfile -t COMPREPLY < <(compgen -W "$words" -- "$word")
}

_groot_metadata_options="--server --by-ns --root --also --zone --zones --catalog --key --primary --top --view --leave-out --flatten \
--published --above --records --output --version --help"

_groot_metadata() {
    local word=${COMP_WORDS[COMP_CWORD]} before=${COMP_WORDS[COMP_CWORD - 1]}
    COMPREPLY=()
    case $before in
        --output | --flatten | --above | --records | --by-ns | :) _groot_files "$word" ;;
        --server | --root | --also | --zone | --zones | --catalog | --key | --primary | --top | --view | --leave-out | =) ;;
        *) mapfile -t COMPREPLY < <(compgen -W "$_groot_metadata_options" -- "$word") ;;
    esac
}

_groot_kinds="alias-differs aliased-name-server answers-differ bad-dnssec-data blackhole copy-differs cyclic-dependency dead-name-server delegation-differs"
_groot_kinds+=" forgotten-row glue-differs lame-delegation misplaced-ds missing-glue no-address no-matching-key overlong rewrite-limit target-without-address unreached-row unsigned-zone"
_groot_gate_options="--old --off --unasked --into --classes --rewrites --workers --without-map --version --help"

_groot_gate() {
    local word=${COMP_WORDS[COMP_CWORD]} before=${COMP_WORDS[COMP_CWORD - 1]} place meta=
    COMPREPLY=()
    case $before in
        --unasked | --classes | --rewrites | --workers) return ;;
        --off)
            mapfile -t COMPREPLY < <(compgen -W "$_groot_kinds" -- "$word")
            return
            ;;
        --old | --into) _groot_files "$word" ; return ;;
    esac
    for ((place = 1; place < COMP_CWORD; place++)); do
        case ${COMP_WORDS[place]} in
            --old | --off | --into | --unasked | --classes | --rewrites | --workers) ((place++)) ;;
            --*) ;;
            *) meta=yes ;;
        esac
    done
    if [[ $meta ]]; then
        _groot_metadata
        [[ $word != -* ]] || mapfile -t -O "${#COMPREPLY[@]}" COMPREPLY < <(compgen -W "$_groot_gate_options" -- "$word")
    elif [[ $word == -* ]]; then
        mapfile -t COMPREPLY < <(compgen -W "$_groot_gate_options" -- "$word")
    else
        _groot_files "$word"
    fi
}

_groot_changed() {
    local word=${COMP_WORDS[COMP_CWORD]} before=${COMP_WORDS[COMP_CWORD - 1]}
    COMPREPLY=()
    if [[ $before == --since ]]; then
        mapfile -t COMPREPLY < <(compgen -W "$(git for-each-ref --format='%(refname:short)' 2>/dev/null)" -- "$word")
    elif [[ $word == -* ]]; then
        mapfile -t COMPREPLY < <(compgen -W "--since --names --version --help" -- "$word")
    else
        _groot_files "$word"
    fi
}

_groot_changes() {
    local word=${COMP_WORDS[COMP_CWORD]} before=${COMP_WORDS[COMP_CWORD - 1]}
    COMPREPLY=()
    if [[ $before == --below ]]; then
        return
    elif [[ $word == -* ]]; then
        mapfile -t COMPREPLY < <(compgen -W "--without-soa --below --version --help" -- "$word")
    else
        _groot_files "$word"
    fi
}

_groot_map() {
    local word=${COMP_WORDS[COMP_CWORD]}
    COMPREPLY=()
    case $COMP_CWORD in
        1) mapfile -t COMPREPLY < <(compgen -W "records reached targets delegations copies servers aliases chain" -- "$word") ;;
        2) _groot_files "$word" ;;
    esac
}

_groot_parts() {
    local word=${COMP_WORDS[COMP_CWORD]}
    COMPREPLY=()
    case $COMP_CWORD in
        1) mapfile -t COMPREPLY < <(compgen -W "part merge" -- "$word") ;;
        *) _groot_files "$word" ;;
    esac
}

_groot_split() {
    local word=${COMP_WORDS[COMP_CWORD]} before=${COMP_WORDS[COMP_CWORD - 1]}
    COMPREPLY=()
    if [[ $before == --parts || $before == --records ]]; then
        return
    elif [[ $word == -* ]]; then
        mapfile -t COMPREPLY < <(compgen -W "--parts --records --map --version --help" -- "$word")
    else
        _groot_files "$word"
    fi
}

_groot_jobs() {
    local word=${COMP_WORDS[COMP_CWORD]} before=${COMP_WORDS[COMP_CWORD - 1]}
    COMPREPLY=()
    case $before in
        --engine) mapfile -t COMPREPLY < <(compgen -W "xargs parallel slurm" -- "$word") ;;
        --at-once | --tries | --memory) ;;
        *)
            if [[ $word == -* ]]; then
                mapfile -t COMPREPLY < <(compgen -W "--engine --at-once --tries --memory --resume --version --help" -- "$word")
            else
                _groot_files "$word"
            fi
            ;;
    esac
}

complete -F _groot groot groot-large
complete -F _groot_map groot-map
complete -F _groot_parts groot-parts
complete -F _groot_metadata groot-metadata
complete -F _groot_gate groot-gate
complete -F _groot_changed groot-changed
complete -F _groot_changes groot-changes
complete -F _groot_split groot-split
complete -F _groot_jobs groot-jobs
