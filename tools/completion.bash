# Completion for bash of ./apex and of the installed apex.
_apex() {
    local word=${COMP_WORDS[COMP_CWORD]} before=${COMP_WORDS[COMP_CWORD-1]} words
    case ${COMP_WORDS[1]}:$COMP_CWORD:${COMP_WORDS[2]:-} in
        *:1:*) words='replay status run check lint init-turns lab picture prove --help --version --program --unproved' ;;
        lab:2:* | picture:2:*) words='svg trace lines status report schedule search lint step check why vcd' ;;
        replay:* | status:*) words='--schedule' ;;
        run:*) words='--turns --ticks --front' ;;
        lab:*:search | picture:*:search) words='--for --worst --process --service --turns --early --states --jobs' ;;
        lint:* | lab:*:lint | picture:*:lint) words='--json --name --allow' ;;
        lab:*:step | picture:*:step) words='--json' ;;
        lab:*:check | picture:*:check) words='--json --comments' ;;
        lab:*:why | picture:*:why) words='--entry --schedule --schedule-file --until --turns --early' ;;
        lab:* | picture:*) words='--schedule --schedule-file --until --turns --early --from --to --by --only --fold --tick-us --json' ;;
    esac
    case $before in
        --for) words='missed hard TIMED_OUT LOST end standstill NO_ACTION NOT_AVAILABLE INVALID_PARAM INVALID_CONFIG INVALID_MODE' ;;
        --schedule | --turns | --ticks | --until | --early | --from | --to | --process | --service | --worst | --states | --jobs | --allow | --entry | --only | --tick-us) return ;;
        --by) words='entries time' ;;
        --schedule-file | --name) words='' ;;
    esac
    mapfile -t COMPREPLY < <(compgen -W "${words:-}" -- "$word"; compgen -f -- "$word")
}
complete -o filenames -F _apex apex ./apex
