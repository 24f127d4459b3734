# Completions of p21 for bash. Made by making/make-pages from the help of the program.

_p21() {
    local word=${COMP_WORDS[COMP_CWORD]} words=
    COMPREPLY=()
    if [ "$COMP_CWORD" -eq 1 ]; then
        words='param syntax schema check canon show same diff faults help --help --version'
        COMPREPLY=($(compgen -W "$words" -- "$word"))
        return
    fi
    case ${COMP_WORDS[1]} in
        param) words='--help' ;;
        syntax) words='--header --count --all --most --where --format --progress --help' ;;
        schema) words='--help' ;;
        check) words='--all --most --where --names --format --progress --help' ;;
        canon) words='--names --progress --help' ;;
        show) words='--name --help' ;;
        same) words='--names --progress --help' ;;
        diff) words='--names --pairs --data --ignore --tolerance --format --progress --help' ;;
        faults) words='--help' ;;
        help) words='param syntax schema check canon show same diff faults' ;;
    esac
    case ${COMP_WORDS[1]}:$word in
        *:-* | help:*) COMPREPLY=($(compgen -W "$words" -- "$word")) ;;
        faults:*) COMPREPLY=($(compgen -W '1 2 3 4 5 6 7 8 9 10 11 12 13 20 21 22 23 24 25 26 27 30 31 32 33 40 41 42 43 44 45 46 47 48 49 50 51 52 53 54 55 56 57 58 59 90 91 92 S1 S2 S3 S4 S5 S6 S7 S8 S9 Abstract AfterEnd Alike BadBinary BadByte BadCodePoint BadDirective BadName BadNumber BadWord Bounds CanonicalTooLong Circular Count Dangling DerivedNotStar Duplicate DuplicateName EndsEarly FileTooLong HeaderShape LeftOut Missing NameRange NoMemory NotDistinct NotOneParameter NotUtf8 NumberRange OneOf OpenComment OpenString PartMissing PartTwice ReadFault RecordTooLong RedeclaredPlace SchemaName SectionShape SectionTwice SelectType StarNotDerived Syntax Token TooDeep TooLarge TwoRedeclarations Unexpected UnknownEntity UnknownItem UnknownName Width WriteFault WrongKind WrongTarget' -- "$word")) ;;
    esac
}
complete -o default -F _p21 p21
