# Completions of pesp's command line for bash.
_pesp() {
    local word=${COMP_WORDS[COMP_CWORD]} before=${COMP_WORDS[COMP_CWORD - 1]} options=--period
    if [ "$COMP_CWORD" -eq 1 ]; then
        mapfile -t COMPREPLY < <(compgen -W "plan solve resume conflict check gap report timetable draw diagram page fix split work graft help --help --version" -- "$word")
        return
    fi
    case ${COMP_WORDS[1]} in
    help)
        mapfile -t COMPREPLY < <(compgen -W "plan solve resume conflict check gap report timetable draw diagram page fix split work graft" -- "$word")
        return
        ;;
    plan) options="--period --seconds --output --from --quiet" ;;
    solve) options="--period --steps --sharp --from --progress" ;;
    resume) options="--period --steps --sharp --share --seconds --progress" ;;
    conflict) options="--period --steps --names" ;;
    check | split | graft) options="--period --sharp" ;;
    gap) options="--period --json" ;;
    report) options="--period --violations --names" ;;
    timetable) options="--period --json --names" ;;
    page) options="--period --names" ;;
    fix) options="--period --fix --lock --names" ;;
    draw) options="--period --rows --names" ;;
    diagram) options="--period --along" ;;
    work) options="--period --steps --sharp --until" ;;
    esac
    case $before in
    --period | --steps | --seconds | --share | --rows | --until | --along | --fix | --lock) return ;;
    esac
    case $word in
    -*) mapfile -t COMPREPLY < <(compgen -W "$options --help" -- "$word") ;;
    *) mapfile -t COMPREPLY < <(compgen -f -- "$word") ;;
    esac
}
complete -o filenames -F _pesp pesp
