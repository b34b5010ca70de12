# What the completion for zsh offers: completed.zsh FILE SERVICE WORD .. prints it. Here are stand-ins for the functions of zsh that
# a terminal needs: each prints what it is given.
file=$1 service=$2
shift 2
words=("$@" '')
CURRENT=$#words
compdef() { : }
_files() { print -- files }
_describe() { print -rl -- ${(P)argv[-1]} }
_arguments() {
    print -rl -- "$@"
    case $CURRENT in
        2) [[ "$*" != *'->'* ]] || state=${${(M)@:#1:*->*}##*->} ;;
        *) [[ "$*" != *'->operand'* ]] || { state=operand; shift words; (( CURRENT-- )) } ;;
    esac
}
source $file
exit 0
