# Completion of the words of twodfq in bash; load it with `. tools/completions/twodfq.bash`.
# Made of tools/commands.txt by tools/commands.
_twodfq() {
    local command=${COMP_WORDS[1]:-} current=${COMP_WORDS[COMP_CWORD]} before=${COMP_WORDS[COMP_CWORD - 1]} words option
    if [ "$COMP_CWORD" = 1 ]; then
        mapfile -t COMPREPLY < <(compgen -W 'script run live gen check lead shape compare help --help --version' -- "$current")
        return
    fi
    # (bash takes = for a word of its own)
    [ "$current" = = ] && current=
    [ "$before" = = ] && before=${COMP_WORDS[COMP_CWORD - 2]}
    case "$command $before" in
    'script --print') words='replies journal both' ;;
    'run --workers') words='' ;;
    'run --policy') words='wfq wf2q msf2q 2dfq 2dfq+' ;;
    'run --estimate') words='declared recent pessimistic' ;;
    'run --initial') words='' ;;
    'run --refresh') words='' ;;
    'run --slot') words='' ;;
    'run --print') words='journal report both summary' ;;
    'live --workers') words='' ;;
    'live --policy') words='wfq wf2q msf2q 2dfq 2dfq+' ;;
    'live --estimate') words='declared recent pessimistic' ;;
    'live --initial') words='' ;;
    'live --refresh') words='' ;;
    'live --slot') words='' ;;
    'live --print') words='journal report both summary' ;;
    'live --watch') words='' ;;
    'gen --seed') words='' ;;
    'gen --tenants') words='' ;;
    'gen --requests') words='' ;;
    'gen --print') words='trace summary' ;;
    'check --explain') words='' ;;
    'lead --of') words='' ;;
    'lead --over') words='' ;;
    'shape --rate') words='' ;;
    'shape --burst') words='' ;;
    'compare --workers') words='' ;;
    'compare --initial') words='' ;;
    'compare --refresh') words='' ;;
    'compare --slot') words='' ;;
    *)
        case $command in
        script) words='--print' ;;
        run) words='--workers --policy --estimate --initial --refresh --slot --print' ;;
        live) words='--workers --policy --estimate --initial --refresh --slot --print --watch' ;;
        gen) words='--seed --tenants --requests --print' ;;
        check) words='--explain' ;;
        lead) words='--of --over' ;;
        shape) words='--rate --burst' ;;
        compare) words='--workers --initial --refresh --slot' ;;
        help) words='script run live gen check lead shape compare' ;;
        *) words= ;;
        esac
        for option in "${COMP_WORDS[@]:2:COMP_CWORD - 2}"; do words=" $words " words=${words/ $option / }; done
        ;;
    esac
    mapfile -t COMPREPLY < <(compgen -W "$words" -- "$current")
}
# (where nothing else fits, a file)
complete -o default -F _twodfq twodfq ./twodfq
