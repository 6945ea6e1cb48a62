# Completion for bash. Of ctrsim its words, and of `show` the usual layouts and the branch words; of each tool the options that
# its --help has, as bash-completion reads them.
_ctrsim() {
    local words=
    case $COMP_CWORD,${COMP_WORDS[1]} in
        1,*) words="run show demo --version --help" ;;
        2,show) words="803 807 883 887 983 987 10bcf" ;;
        3,show) words="0 20000" ;;
    esac
    mapfile -t COMPREPLY < <(compgen -W "$words" -- "${COMP_WORDS[COMP_CWORD]}")
}
complete -o default -F _ctrsim ctrsim
if declare -F _longopt > /dev/null; then
    complete -F _longopt ctrsim-brstack ctrsim-explain ctrsim-fold ctrsim-from_perf ctrsim-perf_data ctrsim-preagg \
        ctrsim-record ctrsim-same ctrsim-trace
fi
