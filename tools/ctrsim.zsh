#compdef ctrsim ctrsim-brstack ctrsim-explain ctrsim-fold ctrsim-from_perf ctrsim-perf_data ctrsim-preagg ctrsim-record ctrsim-same ctrsim-trace
# Completion for zsh. Of ctrsim its words, and of `show` the usual layouts and the branch words; of each tool the options that
# its --help has.
case $service in
    ctrsim)
        case $CURRENT,$words[2] in
            2,*) compadd -- run show demo --version --help ;;
            3,show) compadd -- 803 807 883 887 983 987 10bcf ;;
            4,show) compadd -- 0 20000 ;;
            *) _files ;;
        esac
        ;;
    *) _gnu_generic ;;
esac
