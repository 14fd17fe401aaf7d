# Functions that write jobs and starts as listings, a word a line, for sh and bash: '. words.sh', with its folder in PATH.
#
#     Head FLUENTS ACTIONS LAST     WideHead FLUENTS ACTIONS LAST   Known FLUENT true|false
#     Action NUMBER DURATION        Needs FLUENT true|false   Makes FLUENT true|false   ShiftWindow ACTION FROM TO
#     Group GROUP LIMIT             GroupMember GROUP ACTION
#     Always   Fluent FLUENT   Not FORMULA   And FORMULA FORMULA   Or FORMULA FORMULA   HeldFor FORMULA MOMENTS
#     Act ACTION   Test FORMULA   Sequence NODE NODE   Choice NODE NODE   If FORMULA NODE NODE   While FORMULA NODE
#     StartWindow NODE NODE M N   EndWindow NODE NODE M N   TaskSet   Member NODE
#     BeginAfterBegin I J M N   BeginAfterEnd I J M N   HoldsBefore FORMULA I M N   HoldsAfter FORMULA I M N   HoldsBetween FORMULA I J M N
#     Start MOMENT ACTION
#
# After WideHead, for jobs of up to 256 fluents, Known, Needs, Makes and Fluent write the words of a wide job, until the next Head.
#
# After these values each takes a text, for the comment. A value that does not fit its field, is missing or is no number is said on standard
# error; the function then returns 1, and writes in place of the word a line that w32 refuses. A misspelt name is none of these functions and
# writes no line at all; 'set -e' after '. words.sh' ends a script there, but not at 'test 0' for 'Test 0', which the shell takes. No option
# of the shell is set here: it may be one that the planner works in. Names with words_ in front are its own.

# Writes a word: BASE, and the values in their FIELDS. A field is LOWEST-BIT:MOST, or LOWEST-BIT:truth for true or false.
words_line() { # USE BASE FIELDS VALUE.. [TEXT]
    words_use=$1 words_word=$(($2)) words_fields=$3 words_said=${1%% *} words_fault=
    shift 3
    for words_field in $words_fields; do
        words_said="$words_said ${1-?}"
        [ -n "$words_fault" ] || words_add "${words_field%:*}" "${words_field#*:}" "${1-}"
        [ $# -eq 0 ] || shift
    done
    case ${1-} in '' | *[!0-9]*) ;; *) words_fault="$1 is one number too many" ;; esac
    [ $# -le 1 ] || words_fault='more than one text: quote it'
    if [ -n "$words_fault" ]; then
        printf 'words.sh: %s: %s; use: %s [TEXT]\n' "$words_said" "$words_fault" "$words_use" >&2
        printf 'wrong  # %s: %s\n' "$words_said" "$words_fault"
        return 1
    fi
    printf '%08x  # %s%s\n' "$words_word" "$words_said" "${1:+: $1}"
}

# Adds a value to the word, or says what is wrong with it. A number has no zero in front, which would make it octal. 256 is written as 0, in a
# field of eight bits that can't say 0.
words_add() { # LOWEST-BIT MOST VALUE
    words_least=0
    [ "$2" != 256 ] || words_least=1
    case $2/$3 in
    truth/true) words_value=0 ;;
    truth/false) words_value=1 ;;
    truth/*) words_fault="'$3' is neither true nor false" ;;
    */ | */*[!0-9]* | */0?* | */????*) words_fault="'$3' is not a number from $words_least to $2" ;;
    *) words_value=$3 ;;
    esac
    [ -z "$words_fault" ] || return 0
    if [ "$2" != truth ] && { [ "$3" -lt "$words_least" ] || [ "$3" -gt "$2" ]; }; then
        words_fault="'$3' is not a number from $words_least to $2"
    fi
    words_word=$((words_word | words_value % 256 << $1))
}

# Where words that name a fluent have it, by the head before them: the highest fluent; the lowest bit of its value or role; its own lowest bit
# in a formula.
words_layout() { # MOST TRUTH FORMULA
    words_most=$1 words_truth=$2 words_formula=$3
}
words_layout 63 6 6

Head() { words_layout 63 6 6 && words_line 'Head FLUENTS ACTIONS LAST' '1 << 28' '16:64 8:64 0:63' "$@"; }
WideHead() { words_layout 255 8 0 && words_line 'WideHead FLUENTS ACTIONS LAST' '1 << 28 | 1 << 24' '16:256 8:64 0:63' "$@"; }
Known() { words_line 'Known FLUENT true|false' '2 << 28' "0:$words_most $words_truth:truth" "$@"; }
Action() { words_line 'Action NUMBER DURATION' '3 << 28' '6:63 0:63' "$@"; }
Needs() { words_line 'Needs FLUENT true|false' '4 << 28' "0:$words_most $words_truth:truth" "$@"; }
Makes() { words_line 'Makes FLUENT true|false' "4 << 28 | 2 << $words_truth" "0:$words_most $words_truth:truth" "$@"; }
ShiftWindow() { words_line 'ShiftWindow ACTION FROM TO' '12 << 28' '12:63 6:63 0:63' "$@"; }
Group() { words_line 'Group GROUP LIMIT' '13 << 28' '24:7 0:63' "$@"; }
GroupMember() { words_line 'GroupMember GROUP ACTION' '14 << 28' '24:7 0:63' "$@"; }

Always() { words_line 'Always' '5 << 28' '' "$@"; }
Fluent() { words_line 'Fluent FLUENT' '5 << 28 | 1 << 24' "$words_formula:$words_most" "$@"; }
Not() { words_line 'Not FORMULA' '5 << 28 | 2 << 24' '6:63' "$@"; }
And() { words_line 'And FORMULA FORMULA' '5 << 28 | 3 << 24' '6:63 0:63' "$@"; }
Or() { words_line 'Or FORMULA FORMULA' '5 << 28 | 4 << 24' '6:63 0:63' "$@"; }
HeldFor() { words_line 'HeldFor FORMULA MOMENTS' '5 << 28 | 5 << 24' '6:63 0:63' "$@"; }

Act() { words_line 'Act ACTION' '6 << 28' '18:63' "$@"; }
Test() { words_line 'Test FORMULA' '6 << 28 | 1 << 24' '18:63' "$@"; }
Sequence() { words_line 'Sequence NODE NODE' '6 << 28 | 2 << 24' '18:63 12:63' "$@"; }
Choice() { words_line 'Choice NODE NODE' '6 << 28 | 3 << 24' '18:63 12:63' "$@"; }
If() { words_line 'If FORMULA NODE NODE' '6 << 28 | 4 << 24' '18:63 12:63 6:63' "$@"; }
While() { words_line 'While FORMULA NODE' '6 << 28 | 5 << 24' '18:63 12:63' "$@"; }
StartWindow() { words_line 'StartWindow NODE NODE M N' '6 << 28 | 6 << 24' '18:63 12:63 6:63 0:63' "$@"; }
EndWindow() { words_line 'EndWindow NODE NODE M N' '6 << 28 | 7 << 24' '18:63 12:63 6:63 0:63' "$@"; }
TaskSet() { words_line 'TaskSet' '6 << 28 | 8 << 24' '' "$@"; }
Member() { words_line 'Member NODE' '7 << 28' '0:63' "$@"; }

BeginAfterBegin() { words_line 'BeginAfterBegin I J M N' '8 << 28' '15:3 12:3 6:63 0:63' "$@"; }
BeginAfterEnd() { words_line 'BeginAfterEnd I J M N' '8 << 28 | 1 << 24' '15:3 12:3 6:63 0:63' "$@"; }
HoldsBefore() { words_line 'HoldsBefore FORMULA I M N' '8 << 28 | 2 << 24' '18:63 15:3 6:63 0:63' "$@"; }
HoldsAfter() { words_line 'HoldsAfter FORMULA I M N' '8 << 28 | 3 << 24' '18:63 15:3 6:63 0:63' "$@"; }
HoldsBetween() { words_line 'HoldsBetween FORMULA I J M N' '8 << 28 | 4 << 24' '18:63 15:3 12:3 6:63 0:63' "$@"; }

Start() { words_line 'Start MOMENT ACTION' '9 << 28' '6:63 0:63' "$@"; }
