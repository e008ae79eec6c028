# Sourced by the tests of the command, each in a folder of its own, behind what sets `command`: runs of it, held to their status and words. `cases` counts them, and `moved` the images that went to the other edition and back.
cases=0 moved=0

# An image that the command wrote goes to the other edition and back by the command, byte for byte; one with more than one label on a state is refused with 21.
there_and_back() { # IMAGE
    there=forward again=back
    "$command" judge "$1" | grep -q 'edition 1,' || there=back again=forward
    if "$command" $there "$1" there >moved 2>&1; then
        "$command" $again there again >moved
        cmp again "$1"
        moved=$((moved + 1))
    else
        grep -q '^kamordast: .*: refused 21: ' moved || { cat moved; exit 1; }
    fi
}
# Runs the command and holds its status, and a word of what it said, to what is wanted.
says() { # STATUS WORDS ARGUMENTS...
    wanted=$1 words=$2 status=0
    shift 2
    "$command" "$@" >said 2>&1 || status=$?
    if [ $status -ne "$wanted" ] || ! grep -q -e "$words" said; then
        echo "kamordast $*: status $status for $wanted, wanted the words '$words', and said:"
        cat said
        exit 1
    fi
    cases=$((cases + 1))
    [ $status -eq 0 ] || return 0
    case ${1-} in compact | write | rewrite | forward | back | apply)
        for last; do :; done
        there_and_back "$last"
        ;;
    esac
}
# What stands under a name is as it was, and nothing stands beside it.
kept() { # NAME COPY
    cmp "$1" "$2"
    [ "$(ls "$1"*)" = "$1" ] || { echo "something was left beside $1"; exit 1; }
}
