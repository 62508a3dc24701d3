# Completions of bixundor for bash. Written by tools/options; don't edit.
_bixundor() {
    local cur=${COMP_WORDS[COMP_CWORD]} prev=${COMP_WORDS[COMP_CWORD - 1]} program= options= at
    if [[ $cur == = ]]; then
        cur=
    elif [[ $prev == = ]]; then
        prev=${COMP_WORDS[COMP_CWORD - 2]}
    fi
    for ((at = 1; at < COMP_CWORD; at++)); do
        case ${COMP_WORDS[at]} in
            plan|apply)
                program=${COMP_WORDS[at]}
                break
                ;;
        esac
    done
    COMPREPLY=()
    case $prev in
        --config|--vars|--state|--stop-file|--in-flight)
            compopt -o filenames 2>/dev/null
            COMPREPLY=($(compgen -f -- "$cur"))
            return
            ;;
        --graph)
            COMPREPLY=($(compgen -W "dot" -- "$cur"))
            return
            ;;
        --var|--lineage|--parallelism|--stop-after|--provider)
            return
            ;;
    esac
    case $program in
        plan) options="--config --vars --var --state --lineage --parallelism --stop-after --explain --diff --json --provider --graph --detailed-exitcode --help --version" ;;
        apply) options="--config --vars --var --state --lineage --parallelism --stop-after --explain --diff --json --provider --progress --auto-approve --stop-file --in-flight --help --version" ;;
        *) options="plan apply try --version --help" ;;
    esac
    if [[ $program == "" && ${COMP_WORDS[1]} == try && $COMP_CWORD -gt 1 ]]; then
        options="plan apply"
    fi
    COMPREPLY=($(compgen -W "$options" -- "$cur"))
}
complete -F _bixundor bixundor
