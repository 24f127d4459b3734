#!/bin/sh
# Runs the program p21 as a user does, and compares the exit status, standard output and standard error of each run with
# what they must be: each status, help and usage, and streams that are closed or full. The gate runs the program once, so
# this stands beside it. It builds the program first, where it is missing or old; P21 in the environment names another one. What
# P21_OTHERWISE names, each between bars, is otherwise where that program runs, and is left out.

program=$(readlink -f -- "${P21:-$(dirname -- "$0")/../p21}")
cd "$(dirname -- "$(readlink -f -- "$0")")/.." || exit
here=$(mktemp -d)
trap 'rm -rf "$here"' EXIT
failed=0

"$program" param examples/param.txt > "$here/built" || exit
printf '%s' '+012.500E+03' > "$here/real"
printf '%s' '1 2' > "$here/two"
head -c 16777217 /dev/zero | tr '\0' ' ' > "$here/long"

# bytes FILE: what it holds, with a sign behind it, since `$(..)` drops the line feeds at an end.
bytes() {
    cat "$1"
    echo .
}

# expect NAME STATUS OUTPUT ERROR: what the last run left in `status`, `output` and `error`, each with a line feed at its end, or
# nothing. An ERROR that ends with `*` says how the text begins.
expect() {
    case $P21_OTHERWISE in
        *"|$1|"*)
            echo "$1: left out"
            return
            ;;
    esac
    wrong=
    [ "$status" -eq "$2" ] || wrong="status $status, not $2"
    [ "$(bytes "$here/output")" = "$3${3:+
}." ] || wrong="$wrong; output: $(cat "$here/output")"
    # shellcheck disable=SC2254 # what is wanted is a pattern
    case $(bytes "$here/error") in
        $4${4:+
}.) ;;
        *) wrong="$wrong; error: $(cat "$here/error")" ;;
    esac
    if [ -n "$wrong" ]; then
        echo "$1: $wrong" >&2
        failed=1
    else
        echo "$1: as it must be"
    fi
}

run() {
    "$program" "$@" > "$here/output" 2> "$here/error" < /dev/null
    status=$?
}

# unopened PATH [REASON]: what is said of a file that can't be opened.
unopened() {
    printf 'cannot open %s\nnote: %s: %s' "$1" "$1" "${2:-no such file}"
}

run param "$here/real"
expect 'an answer' 0 '1.25E4' ''

run param "$here/two"
expect 'a refusal' 1 '' 'refused 12 NotOneParameter'

run param "$here/long"
expect 'a text too long' 1 '' 'refused 23 FileTooLong'

run
expect 'no command' 2 '' '*Usage:*'

run frob
expect 'an unknown command' 2 '' '*frob*'

run param
expect 'no file' 2 '' '*FILE*'

run param "$here/real" "$here/two"
expect 'a file too many' 2 '' '*'

run param "$(printf '\377')"
expect 'an argument that is no text' 2 '' 'error: an argument is not UTF-8'

run param "$here/none"
expect 'a file that is not there' 3 '' "$(unopened "$here/none")"

run param "$here/$(printf 'a\nb\r\t\033[31m\177\302\233\342\200\256\303\251\\n')"
escaped='a\\nb\\r\\t\\x1b[[]31m\\x7f\\x9b\\u202eé\\n'
expect 'a path that breaks a line' 3 '' "cannot open $here/$escaped
note: $here/$escaped: no such file"

run faults "$(printf 'a\nb')"
expect 'a word that breaks a line' 2 '' "error: invalid value ""'a\\\\nb' for*"

run param "$here"
expect 'a folder' 3 '' "read fault
note: $here: a folder"

run schema examples/demo.exp
expect 'a schema' 0 'SCHEMA DEMO
ABSTRACT SHAPE(LABEL)
POINT(LABEL,X,Y)
MARKED(LABEL,MARK)
ORIGIN(LABEL,*,Y)
CLOUD(MEMBERS,SIZES,VALUES)' ''

# refused_schema NAME TEXT [NOTE]: the schema of this text is refused by this name, with this note.
refused_schema() {
    printf '%s' "$2" > "$here/schema"
    run schema "$here/schema"
    line="schema refused $1"
    [ -z "$3" ] || line="$line
note: $here/schema: $3"
    expect "a schema refused: $1" 1 '' "$line"
}
adapted="p21-adapt may make a copy of it that fits; p21-adapt $here/schema -o COPY"

refused_schema 'S1 Token' 'SCHEMA s; (* END_SCHEMA;'
refused_schema 'S2 Syntax' 'SCHEMA s; END_SCHEMA'
refused_schema 'S3 Duplicate' 'SCHEMA s; ENTITY a; END_ENTITY; ENTITY a; END_ENTITY; END_SCHEMA;'
refused_schema 'S4 UnknownName' 'SCHEMA s; ENTITY a; x : foo; END_ENTITY; END_SCHEMA;'
refused_schema 'S5 Circular' \
    'SCHEMA s; ENTITY a SUBTYPE OF (b); END_ENTITY; ENTITY b SUBTYPE OF (a); END_ENTITY; END_SCHEMA;'
refused_schema 'S6 LeftOut' 'SCHEMA s; USE FROM t; END_SCHEMA;' "$adapted"
refused_schema 'S7 Bounds' 'SCHEMA s; ENTITY a; x : LIST [3:1] OF REAL; END_ENTITY; END_SCHEMA;'
refused_schema 'S8 RedeclaredPlace' 'SCHEMA s; ENTITY a; y : REAL; END_ENTITY;
    ENTITY b SUBTYPE OF (a); DERIVE SELF\a.z : REAL := 0.0; END_ENTITY; END_SCHEMA;'

run schema "$here/long"
expect 'a schema too long' 1 '' "schema refused S9 TooLarge
note: $here/long: p21-adapt may make a copy of it that fits; p21-adapt $here/long -o COPY"

run schema
expect 'no schema' 2 '' '*S*'

run schema "$here/none"
expect 'a schema that is not there' 3 '' "$(unopened "$here/none")"

run schema "$here"
expect 'a folder as a schema' 3 '' "read fault
note: $here: a folder"

# file INSTANCES: a file of the schema DEMO with these lines in its data section, none where there is no argument.
file() {
    printf '%s\n' 'ISO-10303-21;' 'HEADER;' "FILE_DESCRIPTION((''),'2;1');" "FILE_NAME('','',(''),(''),'','','');" \
        "FILE_SCHEMA(('DEMO'));" 'ENDSEC;' 'DATA;' "$@" 'ENDSEC;' 'END-ISO-10303-21;'
}

demo=examples/demo.exp
file > "$here/empty"
file '#2 = POINT($, 1.0, 10.E-1);' > "$here/point"
file '#2=POINT($,1.,1.);' > "$here/canonical"
file '#1=POINT($,1.,1.);' '#01=POINT($,1.,1.);' > "$here/twice"
: > "$here/nothing"
printf '%s' 'SCHEMA s; END_SCHEMA' > "$here/schema"

run check "$demo" "$here/empty"
expect 'a file without instances' 0 'accepted, instances 0, canonical bytes 152' ''

run check "$demo" "$here/point"
expect 'a file' 0 'accepted, instances 1, canonical bytes 171' ''

run check "$demo" "$here/twice"
expect 'a file refused in an instance' 1 '' 'refused 40 DuplicateName in #1'

run check "$demo" "$here/nothing"
expect 'a file refused at a statement' 1 '' 'refused 24 EndsEarly at statement 1'

# Instances with references that nothing serves, or that are not judged; a name that is given twice; and one whose first instance is refused.
file '#1=POINT($,1.,1.);' '#2=POINT($,1.);' '#3=CLOUD((#1,#2,#9),(),(TALLY(1)));' '#1=POINT($,2.,2.);' '#4=CLOUD((#3),(),(TALLY(1)));' \
    '#2=POINT($,1.,1.);' '#5=CLOUD((#6),(),(TALLY(1)));' > "$here/several"
file '#1=POINT($,1.);' '#2=POINT($,1.,1.);;' > "$here/broken"
file '#1=POINT($,1.);' '#2=POINT($,1.,1.);;' '#3=POINT($,1.,1.)' | head -n 10 > "$here/cut"

run check --all "$demo" "$here/point"
expect 'every refusal of a file that has none' 0 'accepted, instances 1, canonical bytes 171' ''

run check --all "$demo" "$here/several"
expect 'every refusal of a file' 1 '' 'refused 45 Count in #2
refused 40 DuplicateName in #1
refused 40 DuplicateName in #2
refused 56 Dangling in #3
refused 57 WrongTarget in #4
refused 56 Dangling in #5
refusals 6'

run check --all --most 3 "$demo" "$here/several"
expect 'three refusals' 1 '' 'refused 45 Count in #2
refused 40 DuplicateName in #1
refused 40 DuplicateName in #2
refusals 3, no more were looked for'

run check --most 5 "$demo" "$here/several"
expect 'five refusals, two of them of references' 1 '' 'refused 45 Count in #2
refused 40 DuplicateName in #1
refused 40 DuplicateName in #2
refused 56 Dangling in #3
refused 57 WrongTarget in #4
refusals 5, no more were looked for'

# No list ends by itself at a round number: 150 records, and 150 references of others.
file "$(seq 150 | sed 's/.*/#&=POINT($,1.);/')" "$(seq 1001 1150 | sed 's/.*/#&=CLOUD((#9&),(),(TALLY(1)));/')" > "$here/many"
run check --all "$demo" "$here/many"
expect 'three hundred refusals' 1 '' "$(seq 150 | sed 's/.*/refused 45 Count in #&/')
$(seq 1001 1150 | sed 's/.*/refused 56 Dangling in #&/')
refusals 300"

run check --all "$demo" "$here/broken"
expect 'a broken statement' 1 '' 'refused 45 Count in #1
refused 20 Unexpected at statement 10
refusals 2'

run check --all "$demo" "$here/cut"
expect 'a refusal that ends the reading' 1 '' 'refused 45 Count in #1
refused 20 Unexpected at statement 10
refused 24 EndsEarly at statement 11
refusals 3, read 162 bytes'

run check --all "$demo" "$here"
expect 'every refusal of a folder' 3 '' 'read fault
refusals 0, read 0 bytes
note: '"$here: a folder"

run check --all "$here/schema" "$here/point"
expect 'every refusal, with a schema that is refused' 1 '' 'schema refused S2 Syntax'

# The place behind the line of a refusal: of a record, a byte, a token, a record of the header and a name in it; none of a reference, and none of a
# schema. A line ends with a line feed, a carriage return, or both, and a column is a byte.
run check --where "$demo" "$here/twice"
expect 'the place of a record' 1 '' "refused 40 DuplicateName in #1
$here/twice:9:1"

file '#1=POINT($,1.,1.);  #2=POINT($,1.);' > "$here/placed"
run check --where "$demo" "$here/placed"
expect 'the place of a record behind another' 1 '' "refused 45 Count in #2
$here/placed:8:34: POINT.Y"

file '#1=POINT($,1.,1.);' '#2=point();' > "$here/placed"
run check "$demo" "$here/placed" --where
expect 'the place of a byte' 1 '' "refused 1 BadByte at statement 9
$here/placed:9:4"

run check --where "$demo" "$here/broken"
expect 'the place of the first of two refusals' 1 '' "refused 45 Count in #1
$here/broken:8:14: POINT.Y"

file '#2=POINT($,1.,1.);;' > "$here/placed"
run check --where "$demo" "$here/placed"
expect 'the place of a token' 1 '' "refused 20 Unexpected at statement 9
$here/placed:8:19"

file | sed "s/(('DEMO'))/(('OTHER'))/" > "$here/placed"
run check --where "$demo" "$here/placed"
expect 'the place of the name of a schema' 1 '' "refused 31 SchemaName at statement 5
$here/placed:5:14"

file | sed "s/^FILE_NAME.*/  FILE_NAME('');/" > "$here/placed"
run check --where "$demo" "$here/placed"
expect 'the place of a record of the header' 1 '' "refused 30 HeaderShape at statement 4
$here/placed:4:15"

printf 'ISO-10303-21;\r\n\rHEADER;\n/*\303\274*/x' > "$here/placed"
run check --where "$demo" "$here/placed"
expect 'a place behind each end of a line' 1 '' "refused 1 BadByte at statement 3
$here/placed:4:7"

run check --where "$demo" "$here/nothing"
expect 'the place of an end' 1 '' "refused 24 EndsEarly at statement 1
$here/nothing:1:1"

file '#3=CLOUD((#9),(),(TALLY(1)));' > "$here/placed"
run check --where "$demo" "$here/placed"
expect 'the place of a reference' 1 '' "refused 56 Dangling in #3
$here/placed:8:11: CLOUD.MEMBERS"

run check --where "$demo" "$here"
expect 'no place of a read' 3 '' "read fault
note: $here: a folder"

file "$(printf "/* \303\274 */ #1=POINT('\303\244\342\202\254',1.,'');")" > "$here/placed"
run check --format jsonl "$demo" "$here/placed"
expect 'a column in characters' 1 '' \
    "{\"file\":\"$here/placed\",\"number\":49,\"name\":\"WrongKind\",\"instance\":1,\"byte\":155,\"line\":8,\"column\":30,\"column_in_characters\":26,\"entity\":\"POINT\",\"attribute\":\"Y\"}"

file '#3=CLOUD((#9),(),(TALLY(1)));' > "$here/placed"
run check --where "$here/schema" "$here/twice"
expect 'the place in a schema' 1 '' "schema refused S2 Syntax
$here/schema:1:21"

run check --all --where "$here/schema" "$here/twice" "$here/point"
expect 'the place in a schema for several files' 1 '' "schema refused S2 Syntax
$here/schema:1:21"

run check --format jsonl "$here/schema" "$here/twice"
expect 'the place in a schema as JSON' 1 '' \
    "{\"file\":\"$here/schema\",\"number\":\"S2\",\"name\":\"Syntax\",\"byte\":20,\"line\":1,\"column\":21}"

run check --where "$demo" "$here/point"
expect 'no place in a file that is accepted' 0 'accepted, instances 1, canonical bytes 171' ''

run check --where --all "$demo" "$here/broken"
expect 'places in a list' 1 '' "$here/broken:8:14: 45 Count in #1: POINT.Y
$here/broken:9:19: 20 Unexpected at statement 10
refusals 2"

run check --where --all "$demo" "$here/cut"
expect 'places in a list that a refusal ends' 1 '' "$here/cut:8:14: 45 Count in #1: POINT.Y
$here/cut:9:19: 20 Unexpected at statement 10
$here/cut:11:1: 24 EndsEarly at statement 11
refusals 3, read 162 bytes"

run check --where --most 1 "$demo" "$here/broken"
expect 'the place of the one that is asked for' 1 '' "$here/broken:8:14: 45 Count in #1: POINT.Y
refusals 1, no more were looked for"

run check --where --all "$demo" "$here/point"
expect 'no places in a list of a file that is accepted' 0 'accepted, instances 1, canonical bytes 171' ''

run check --all --format jsonl "$demo" "$here/broken"
expect 'a list as JSON' 1 '' \
    "{\"file\":\"$here/broken\",\"number\":45,\"name\":\"Count\",\"instance\":1,\"byte\":139,\"line\":8,\"column\":14,\"entity\":\"POINT\",\"attribute\":\"Y\"}
{\"file\":\"$here/broken\",\"number\":20,\"name\":\"Unexpected\",\"statement\":10,\"passed\":\[160,162\],\"byte\":160,\"line\":9,\"column\":19,\"expected\":\[\"ENDSEC\",\"instance name\"\]}
{\"refusals\":2,\"extent\":\"whole\"}"

run check --format jsonl "$demo" "$here/broken"
expect 'a refusal as JSON' 1 '' \
    "{\"file\":\"$here/broken\",\"number\":45,\"name\":\"Count\",\"instance\":1,\"byte\":139,\"line\":8,\"column\":14,\"entity\":\"POINT\",\"attribute\":\"Y\"}"

run check --format jsonl "$demo" "$here/point"
expect 'no JSON of a file that is accepted' 0 'accepted, instances 1, canonical bytes 171' ''

run check --format json "$demo" "$here/point"
expect 'no such form' 2 '' "error: invalid value 'json' for '--format <FORM>'*"

run check --all --format jsonl "$demo" "$here"
expect 'JSON of a read that failed' 3 '' 'read fault
{"refusals":0,"extent":"part","read":0}
note: '"$here: a folder"

run check --where "$demo" "$here/twice" "$here/empty"
expect 'the place of one of several files' 1 "$here/empty: accepted, instances 0, canonical bytes 152" \
    "$here/twice: refused 40 DuplicateName in #1
$here/twice:9:1"

run check --all --where "$demo" "$here/twice" "$here/empty" "$here/placed"
expect 'places in lists of several files' 1 "$here/empty: accepted, instances 0, canonical bytes 152" \
    "$here/twice:9:1: 40 DuplicateName in #1
$here/twice: refusals 1
$here/placed:8:11: 56 Dangling in #3: CLOUD.MEMBERS
$here/placed: refusals 1"

run check --most 0 "$demo" "$here/several"
expect 'no refusals asked for' 2 '' "error: invalid value '0' for '--most <N>'*"
# How the number of an instance is written is said of that number alone.
if grep -q '18 for #18' "$here/error"; then
    echo 'no refusals asked for: how the number of an instance is written is said' >&2
    failed=1
fi

# fed FILE ARGUMENTS: a run with this file as its standard input.
fed() {
    input=$1
    shift
    "$program" "$@" > "$here/output" 2> "$here/error" < "$input"
    status=$?
}

fed "$here/real" param -
expect 'a parameter from standard input' 0 '1.25E4' ''

fed "$demo" check - "$here/point"
expect 'a schema from standard input' 0 'accepted, instances 1, canonical bytes 171' ''

fed "$here/point" check "$demo" -
expect 'a file from standard input' 0 'accepted, instances 1, canonical bytes 171' ''

fed "$here/twice" check --where "$demo" -
expect 'a place in standard input' 1 '' 'refused 40 DuplicateName in #1
-:9:1'

fed "$here/point" check - -
expect 'standard input for two' 3 '' 'cannot open -
note: -: standard input is named twice'

# Several files: each line has its name in front, one that is refused or not there doesn't end the run, and the status is the highest.
one="$here/point: accepted, instances 1, canonical bytes 171"
none="$here/empty: accepted, instances 0, canonical bytes 152"
refused="$here/twice: refused 40 DuplicateName in #1"
gone="$here/none: cannot open $here/none
$here/none: note: no such file"
folder="$here: read fault
$here: note: a folder"

run check "$demo" "$here/point" "$here/empty" "$here/point"
expect 'several files' 0 "$one
$none
$one" ''

run check "$demo" "$here/point" "$here/twice" "$here/empty"
expect 'several files, one of them refused' 1 "$one
$none" "$refused"

run check "$demo" "$here/twice" "$here/none" "$here" "$here/point"
expect 'several files, of which some cannot be read' 3 "$one" "$refused
$gone
$folder"

run check "$demo" "$here/none" "$here/twice"
expect 'a file that is not there, and one that is refused' 3 '' "$gone
$refused"

run check --all "$demo" "$here/twice" "$here/point" "$here"
expect 'every refusal of several files' 3 "$one" "$refused
$here/twice: refusals 1
$here: read fault
$here: refusals 0, read 0 bytes
$here: note: a folder"

run check "$here/schema" "$here/point" "$here/none"
expect 'several files with a schema that is refused' 1 '' 'schema refused S2 Syntax'

run check "$here/none" "$here/point" "$here/absent"
expect 'several files with a schema that is not there' 3 '' "$(unopened "$here/none")"

printf '%s\n' "$here/point" '' "$here/twice" > "$here/list"
run check "$demo" "@$here/list"
expect 'the files of a list' 1 "$one" "$refused"

run check "$demo" "$here/empty" "@$here/list" "$here/none"
expect 'a file, those of a list, and another file' 3 "$none
$one" "$refused
$gone"

printf '%s\r\n%s' "$here/point" "$here/empty" > "$here/list"
run check "$demo" "@$here/list"
expect 'a list with other line ends' 0 "$one
$none" ''

fed "$here/list" check "$demo" @-
expect 'a list from standard input' 0 "$one
$none" ''

: > "$here/list"
run check "$demo" "@$here/list"
expect 'a list of no files' 0 '' ''

run check "$demo" "@$here/none"
expect 'a list that is not there' 3 '' "$gone"

run check "$demo" "@$here" "$here/point"
expect 'a folder as a list' 3 "$one" "$here: cannot open $here
$here: note: a folder"

fed "$here/point" check "$demo" - "$here/point" -
expect 'standard input as two of several files' 3 "-: accepted, instances 1, canonical bytes 171
$one" '-: cannot open -
-: note: standard input is named twice'

# What was given, where something else is wanted.
gzip -c "$here/point" > "$here/packed file"
run check "$demo" "$here/packed file"
expect 'a file packed by gzip' 1 '' "refused 1 BadByte at statement 1
note: $here/packed file: packed by gzip; gunzip -c < '$here/packed file' | p21 check $demo -"

run check --where "$demo" "$here/packed file"
expect 'a place in front of a note' 1 '' "refused 1 BadByte at statement 1
$here/packed file:1:2
note: $here/packed file: packed by gzip; gunzip -c < '$here/packed file' | p21 check $demo -"

run check "$demo" "$here/packed file" "$here/point"
expect 'a file packed by gzip, among several' 1 "$one" "$here/packed file: refused 1 BadByte at statement 1
$here/packed file: note: packed by gzip; gunzip -c < '$here/packed file' | p21 check $demo -"

fed "$here/packed file" show "$demo" - --name 2
expect 'standard input packed by gzip' 1 '' "refused 1 BadByte at statement 1
note: -: packed by gzip; gunzip -c | p21 show $demo - --name 2"

printf 'PK\003\004\024' > "$here/archive"
run canon "$demo" "$here/archive"
expect 'a zip archive' 1 '' "refused * at statement 1
note: $here/archive: a zip archive; unzip -p $here/archive | p21 canon $demo -"

run schema "$here/archive"
expect 'a zip archive as a schema' 1 '' "schema refused S*
note: $here/archive: a zip archive; unzip -p $here/archive | p21 schema -"

run check "$demo" "$demo"
expect 'a schema as a file' 1 '' "refused * at statement 1
note: $demo: a schema, where a STEP file is wanted"

run check "$here/point" "$demo"
expect 'schema and file exchanged' 1 '' "schema refused S*
note: $here/point: a STEP file, where a schema is wanted"

run same "$demo" "$here/point" "$demo"
expect 'a schema as the second file' 1 '' "second: refused * at statement 1
note: $demo: a schema, where a STEP file is wanted"

# Files by themselves.
run syntax "$here/point"
expect 'a file by itself' 0 'well formed, instances 1, schema DEMO' ''

run syntax "$here/several"
expect 'a file by itself with a name given twice' 1 '' 'refused 40 DuplicateName in #1'

file '#1=NO(#2);' '#2=(B()A(#1,$));' > "$here/other"
run syntax "$here/other"
expect 'a file by itself that no schema accepts' 0 'well formed, instances 2, schema DEMO' ''

fed "$here/point" syntax -
expect 'standard input by itself' 0 'well formed, instances 1, schema DEMO' ''

run syntax "$here/none"
expect 'no file by itself' 3 '' "$(unopened "$here/none")"

run syntax "$here"
expect 'a folder by itself' 3 '' "read fault
note: $here: a folder"

run syntax "$demo"
expect 'a schema by itself' 1 '' "refused * at statement 1
note: $demo: a schema, where a STEP file is wanted"

run syntax "$here/packed file"
expect 'a packed file by itself' 1 '' "refused 1 BadByte at statement 1
note: $here/packed file: packed by gzip; gunzip -c < '$here/packed file' | p21 syntax -"

run syntax "$here/point" "$here/twice" "$here/none" "$here/other"
expect 'several files by themselves' 3 "$here/point: well formed, instances 1, schema DEMO
$here/other: well formed, instances 2, schema DEMO" "$here/twice: refused 40 DuplicateName in #1
$gone"

run syntax "$here/twice" "$here/packed file"
expect 'several files by themselves, of which one is packed' 1 '' "$here/twice: refused 40 DuplicateName in #1
$here/packed file: refused 1 BadByte at statement 1
$here/packed file: note: packed by gzip; gunzip -c < '$here/packed file' | p21 syntax -"

printf '%s\n' "$here/point" "$here/other" > "$here/list"
run syntax "@$here/list"
expect 'the files of a list by themselves' 0 "$here/point: well formed, instances 1, schema DEMO
$here/other: well formed, instances 2, schema DEMO" ''

run syntax
expect 'nothing by itself' 2 '' '*FILE*'

# What is told of files by themselves.
run syntax --header "$here/point"
expect 'a header in words' 0 'well formed, instances 1, schema DEMO
description:
implementation level: 2;1
file name:
time stamp:
author:
organization:
preprocessor version:
originating system:
authorization:
schema: DEMO' ''

run syntax --count "$here/other"
expect 'the keywords of a file' 0 'well formed, instances 2, schema DEMO
A 1
B 1
NO 1' ''

run syntax --count --header examples/product.step
expect 'header and keywords' 0 'well formed, instances 128, schema PRODUCT_MODEL
description: A block with six faces
implementation level: 2;1
file name: block.step
time stamp: 2024-03-15T10:30:00
author: Edda Krüger
organization: Block works
preprocessor version: written by hand
originating system:
authorization: none
schema: PRODUCT_MODEL
ADVANCED_FACE 6
AXIS2_PLACEMENT_3D 7
CALENDAR_DATE 1
CARTESIAN_POINT 8
CLOSED_SHELL 1
COLOUR_RGB 2
CONVERSION_BASED_UNIT 1
DIMENSIONAL_EXPONENTS 2
DIRECTION 6
EDGE_CURVE 12
EDGE_LOOP 6
FACE_OUTER_BOUND 6
GEOMETRIC_REPRESENTATION_CONTEXT 1
GLOBAL_UNIT_ASSIGNED_CONTEXT 1
LENGTH_UNIT 1
LINE 12
MANIFOLD_SOLID_BREP 1
MEASURE_WITH_UNIT 1
NAMED_UNIT 3
ORGANIZATION 2
ORIENTED_EDGE 24
PERSON 2
PERSON_AND_ORGANIZATION 2
PLANE 6
PLANE_ANGLE_UNIT 2
PRODUCT 1
PRODUCT_DEFINITION 1
REPRESENTATION_CONTEXT 1
SHAPE_DEFINITION_REPRESENTATION 1
SHAPE_REPRESENTATION 1
SI_UNIT 2
STYLED_ITEM 2
VECTOR 3
VERTEX_POINT 8' ''

run syntax --header --count "$here/several"
expect 'a refused file of which all is to be told' 1 '' 'refused 40 DuplicateName in #1'

file '#2 = POINT($, 1.0, 10.E-1);' | sed "s/FILE_NAME.*/FILE_NAME(\$,\$,('\\\\X\\\\1B[31m',\$),\$,\$,\$,\$);/" > "$here/coloured"
run syntax --header "$here/coloured" "$here/twice" "$here/none"
expect 'several files with their headers' 3 "$here/coloured: well formed, instances 1, schema DEMO
$here/coloured: description:
$here/coloured: implementation level: 2;1
$here/coloured: author: \\X2\\001B\\X0\\[31m
$here/coloured: schema: DEMO" "$here/twice: refused 40 DuplicateName in #1
$gone"

fed "$here/other" syntax --count "$here/point" -
expect 'several files with their keywords, one of them standard input' 0 "$here/point: well formed, instances 1, schema DEMO
$here/point: POINT 1
-: well formed, instances 2, schema DEMO
-: A 1
-: B 1
-: NO 1" ''

run check --header "$demo" "$here/point"
expect 'a header in words of another command' 2 '' '*--header*'

# The large run: 100,000 points.
file "$(seq 100000 | sed 's/.*/#&=POINT($,1.,1.);/')" > "$here/large"
run check "$demo" "$here/large"
expect 'a file of 100,000 instances' 0 'accepted, instances 100000, canonical bytes 2289047' ''

run check "$here/schema" "$here/point"
expect 'a file with a schema that is refused' 1 '' 'schema refused S2 Syntax'

run check "$demo"
expect 'no file to check' 2 '' '*FILE*'

run check "$demo" "$here/none"
expect 'a file to check that is not there' 3 '' "$(unopened "$here/none")"

run check "$here/none" "$here/absent"
expect 'neither schema nor file' 3 '' "$(unopened "$here/none")"

run check "$here/schema" "$here/none"
expect 'a file that is not there, and a schema that would be refused' 3 '' "$(unopened "$here/none")"

run check "$demo" "$here"
expect 'a folder to check' 3 '' "read fault
note: $here: a folder"

run canon "$demo" "$here/point"
expect 'a canonical file' 0 "$(cat "$here/canonical")" ''
cmp -s "$here/output" "$here/canonical" || { echo 'a canonical file: other bytes' >&2; failed=1; }

run canon "$demo" "$here/canonical"
expect 'a canonical file again' 0 "$(cat "$here/canonical")" ''

run canon "$demo" "$here/twice"
expect 'no canonical file' 1 '' 'refused 40 DuplicateName in #1'

run canon "$demo" "$here/none"
expect 'a canonical file of none' 3 '' "$(unopened "$here/none")"

run canon "$here/none" "$here/point"
expect 'a canonical file by no schema' 3 '' "$(unopened "$here/none")"

run show "$demo" "$here/point" --name 2
expect 'an instance' 0 '#2=POINT($,1.,1.);' ''

run show "$demo" "$here/point" --name=002
expect 'an instance by another spelling of its number' 0 '#2=POINT($,1.,1.);' ''

run show "$demo" "$here/point" --name 3
expect 'no instance' 1 '' 'no #3'

run show "$demo" "$here/point" --name 18446744073709551615
expect 'no instance of the last number' 1 '' 'no #18446744073709551615'

run show "$demo" "$here/twice" --name 1
expect 'an instance of a refused file' 1 '' 'refused 40 DuplicateName in #1'

for number in '#2' 18446744073709551616 +2 2. two ''; do
    run show "$demo" "$here/point" --name "$number"
    expect "the number '$number'" 2 '' '*--name*18 for #18'
done

run show "$demo" "$here/point" --name -1
expect 'a number like an option' 2 '' '*--name*'

run show "$demo" "$here/point"
expect 'no number' 2 '' '*--name*'

run show "$demo" "$here/none" --name 2
expect 'an instance of none' 3 '' "$(unopened "$here/none")"

run show "$here/none" "$here/point" --name 2
expect 'an instance by no schema' 3 '' "$(unopened "$here/none")"

run same "$demo" "$here/point" "$here/canonical"
expect 'the same' 0 'same' ''

run same "$demo" "$here/point" "$here/empty"
expect 'not the same' 1 'different' ''

run same "$demo" "$here/twice" "$here/nothing"
expect 'the first refused' 1 '' 'first: refused 40 DuplicateName in #1'

run same "$demo" "$here/point" "$here/nothing"
expect 'the second refused' 1 '' 'second: refused 24 EndsEarly at statement 1'

run same "$here/schema" "$here/point" "$here/canonical"
expect 'files with a schema that is refused' 1 '' 'schema refused S2 Syntax'

run same "$demo" "$here/point"
expect 'one file alone' 2 '' '*B*'

run same "$demo" "$here/point" "$here/none"
expect 'a second file that is not there' 3 '' "$(unopened "$here/none")"

run same "$demo" "$here/none" "$here/absent"
expect 'a first file that is not there' 3 '' "$(unopened "$here/none")"

run same "$here/none" "$here/point" "$here/absent"
expect 'two files by no schema' 3 '' "$(unopened "$here/none")"

# Files by what their models say of their instances, whatever names these have. A cloud of a point is told apart; two clouds of the same two
# points aren't, since nothing tells one from the other: the clouds, whose keyword comes first, are named.
file '#7=CLOUD((#3),(),(TALLY(1)));' '#3=POINT($,1.,1.);' > "$here/told"
file '#4=POINT($,1.0,1.0);' '#9=CLOUD((#4),(),(TALLY(1)));' > "$here/renumbered"
file '#4=POINT($,1.0,2.0);' '#9=CLOUD((#4),(),(TALLY(1)));' > "$here/changed"
file '#1=CLOUD((#2),(),(TALLY(1)));' '#2=POINT($,1.,1.);' > "$here/numbered"
clouds='#1=POINT($,1.,1.);#2=POINT($,1.,1.);#3=CLOUD((#1,#2),(),(TALLY(1)));#4=CLOUD((#1,#2),(),(TALLY(1)));'
file "$clouds" > "$here/alike"
file "$(echo "$clouds" | sed 's/#\([1-4]\)/#1\1/g')" > "$here/renumbered_alike"
run canon "$demo" "$here/numbered"
cp "$here/output" "$here/numbered"

for name in told renumbered numbered; do
    run canon --names "$demo" "$here/$name"
    expect "the numbered file of one that is $name" 0 "$(cat "$here/numbered")" ''
    cmp -s "$here/output" "$here/numbered" || { echo "the numbered file of one that is $name: other bytes" >&2; failed=1; }
done

run canon --names "$demo" "$here/alike"
expect 'no numbered file' 1 '' 'refused 59 Alike in #3'

run canon "$demo" "$here/twice" --names
expect 'no numbered file of one that is refused' 1 '' 'refused 40 DuplicateName in #1'

run canon --names "$here/schema" "$here/told"
expect 'no numbered file by a schema that is refused' 1 '' 'schema refused S2 Syntax'

run canon --names "$demo" "$here/none"
expect 'the numbered file of none' 3 '' "$(unopened "$here/none")"

run canon --names "$demo" "$here"
expect 'the numbered file of a folder' 3 '' "read fault
note: $here: a folder"

run canon --names --names "$demo" "$here/told"
expect 'names twice' 2 '' '*--names*'

fed "$here/told" canon --names "$demo" -
expect 'the numbered file of standard input' 0 "$(cat "$here/numbered")" ''

run same "$demo" "$here/told" "$here/renumbered"
expect 'other names' 1 'different' ''

run same --names "$demo" "$here/told" "$here/renumbered"
expect 'the same but for names' 0 'same' ''

run same --names "$demo" "$here/told" "$here/changed"
expect 'not the same but for names' 1 'different' ''

run same --names "$demo" "$here/alike" "$here/alike"
expect 'a file beside itself, of which names are not told apart' 0 'same' ''

run same --names "$demo" "$here/alike" "$here/renumbered_alike"
expect 'two files of which names are not told apart' 1 '' 'first: refused 59 Alike in #3'

run same --names "$demo" "$here/renumbered_alike" "$here/alike"
expect 'the same two in the other order' 1 '' 'first: refused 59 Alike in #13'

run same --names "$demo" "$here/alike" "$here/told"
expect 'names told apart in one file alone' 1 'different' ''

run same --names "$demo" "$here/alike" "$here/twice"
expect 'a second file refused, whatever its names' 1 '' 'second: refused 40 DuplicateName in #1'

run same --names "$demo" "$here/told" "$here/none"
expect 'no second file, whatever its names' 3 '' "$(unopened "$here/none")"

run check --names "$demo" "$here/told"
expect 'a file whose names are told apart' 0 'accepted, instances 2, canonical bytes 201' ''

run check --names "$demo" "$here/alike"
expect 'a file whose names are not told apart' 1 '' 'refused 59 Alike in #3'

run check "$demo" "$here/alike"
expect 'the same file by its own names' 0 'accepted, instances 4, canonical bytes 256' ''

run check --names "$demo" "$here/told" "$here/alike" "$here/none" "$here/twice" "$here/renumbered"
expect 'names of several files' 3 "$here/told: accepted, instances 2, canonical bytes 201
$here/renumbered: accepted, instances 2, canonical bytes 201" "$here/alike: refused 59 Alike in #3
$gone
$here/twice: refused 40 DuplicateName in #1"

run check --names --all "$demo" "$here/alike"
expect 'names behind a list of refusals' 1 '' 'refused 59 Alike in #3
refusals 1'

run check --names --all "$demo" "$here/several"
expect 'a list of refusals in front of names' 1 '' 'refused 45 Count in #2
*
refusals 6'

run check --names --all "$demo" "$here/told"
expect 'names told apart, and no list of refusals' 0 'accepted, instances 2, canonical bytes 201' ''

run check --names --where "$demo" "$here/alike"
expect 'no place of names' 1 '' 'refused 59 Alike in #3'

run check --names --where "$demo" "$here/twice"
expect 'the place of a refusal, in front of names' 1 '' "refused 40 DuplicateName in #1
$here/twice:9:1"

run check --names --where --most 3 "$demo" "$here/alike" "$here/broken"
expect 'names beside places of several files' 1 '' "$here/alike: refused 59 Alike in #3
$here/alike: refusals 1
$here/broken:8:14: 45 Count in #1: POINT.Y
*"

fed "$here/alike" check --names --format jsonl "$demo" -
expect 'names as JSON' 1 '' '{"file":"-","number":59,"name":"Alike","instance":3,"alike":4}'

run check --names --all --format jsonl "$demo" "$here/alike"
expect 'names as JSON, and their end' 1 '' "{\"file\":\"$here/alike\",\"number\":59,\"name\":\"Alike\",\"instance\":3,\"alike\":4}
{\"refusals\":1,\"extent\":\"whole\"}"

run diff --names "$demo" "$here/told" "$here/renumbered"
expect 'no differences but for names' 0 'same' ''

run diff --names "$demo" "$here/told" "$here/changed"
expect 'differences by pairs' 1 'changed #3/#4 POINT.Y 1. 2.
different: 1 changed, 0 came, 0 went' ''

run diff --names --format jsonl "$demo" "$here/told" "$here/renumbered"
expect 'no differences but for names, as JSON' 0 '{"kind":"verdict","verdict":"same","changed":0,"came":0,"went":0}' ''

run diff --names "$demo" "$here/alike" "$here/renumbered_alike"
expect 'differences by pairs of instances that are alike' 0 'same' ''

run diff --names "$demo" "$here/alike" "$here/twice"
expect 'a second file refused, whatever the pairs' 1 '' 'second: refused 40 DuplicateName in #1'

run diff --names "$demo" "$here/told" "$here/none"
expect 'no second file, whatever the pairs' 3 '' "$(unopened "$here/none")"

run diff --names --ignore point.y --ignore SHAPE.LABEL "$demo" "$here/told" "$here/changed"
expect 'nothing but what is left out differs' 0 'left out: POINT.Y, SHAPE.LABEL
different: 0 changed, 0 came, 0 went; 1 difference at ignored attributes not listed' ''

run diff --names --tolerance 1E3 --ignore SHAPE.LABEL "$demo" "$here/told" "$here/changed"
expect 'nothing but what is near or left out differs' 0 'left out: SHAPE.LABEL, reals within the tolerance 1E3
different: 0 changed, 0 came, 0 went; 1 value within the tolerance 1E3 not listed' ''

run diff --tolerance 1,5 "$demo" "$here/told" "$here/told"
expect 'a tolerance that is no number' 1 '' '--tolerance 1,5: a tolerance is a number of 0 or more, as 1E-6'

run diff --data "$demo" "$here/told" "$here/told"
expect 'the same with its header left out' 0 'left out: the header
same' ''

run diff --ignore POINT.Z "$demo" "$here/none_read" "$here/told"
expect 'a file that is missing before an attribute that is' 3 '' "$(unopened "$here/none_read")"

run diff --ignore POINT.Z "$demo" "$here/broken" "$here/told"
expect 'an attribute that the schema does not have' 1 '' '--ignore POINT.Z: POINT has no attribute Z of which files have values'

run diff --ignore "point
y" "$demo" "$here/told" "$here/told"
expect 'a word that names no attribute, on one line' 1 '' '--ignore point\\ny: an attribute is named as ENTITY.ATTRIBUTE'

run diff --ignore
expect 'no attribute behind --ignore' 2 '' "error: a value is required for '--ignore <ENTITY.ATTRIBUTE>' but none was supplied

For more information, try '--help'."

run --version
expect 'the version' 0 'p21 0.1.0 (canonical form 1)' ''

# The toolchain that README names is the one that is here.
if command -v rt > /dev/null && ! grep -qF "\`$(rt version)\`" README.md; then
    echo "README does not name the toolchain $(rt version)" >&2
    failed=1
fi

# Each refusal of the documents is listed with its number and name, and explained by both.
run faults
cp "$here/output" "$here/listed"
printf '\n\n' > "$here/feeds"
: > "$here/output"
expect 'the list of refusals: status and error' 0 '' ''
sed -n 's/^### \(S\{0,1\}[0-9][0-9]* [A-Za-z0-9]*\)$/\1/p' docs/FAULTS.md | while read -r number name; do
    grep -q "^ *$number $name  *[^ ]" "$here/listed" || echo "the list of refusals: no $number $name"
    "$program" faults "$number" | head -n 1 | grep -qx "$number $name" || echo "the refusal $number: another one is explained"
    "$program" faults "$name" | grep -qx "$number $name" || echo "the refusal $name: $number is not explained"
    "$program" faults "$number" | tail -c 2 | cmp -s - "$here/feeds" || echo "the refusal $number: no empty line stands behind it"
done > "$here/unlisted"
if [ -s "$here/unlisted" ]; then
    cat "$here/unlisted" >&2
    failed=1
fi

run faults 11
expect 'one refusal' 0 "11 BadName

    #1=VERTEX_POINT('',# 2);

\`refused 11 BadName at statement 8\`

No digit stands behind \`#\`. Leave out what stands between.
" ''

for word in frob 99 S10 011 ''; do
    run faults "$word"
    expect "no refusal by '$word'" 2 '' "error: invalid value '$word' for '\[N\]'*"
done

run faults 11 12
expect 'two refusals' 2 '' '*12*'

making/make-refusals --check || failed=1

# blanks COUNT: a file with so many blanks between its data section and its end.
blanks() {
    file | sed '/^DATA;$/q'
    head -c "$1" /dev/zero | tr '\0' ' '
    printf '%s\n' 'ENDSEC;' 'END-ISO-10303-21;'
}

blanks 167772160 > "$here/blank"

run check --progress "$demo" "$here/blank"
expect 'progress without a terminal' 0 'accepted, instances 0, canonical bytes 152' ''

# on_terminal WORDS..: runs the program with a terminal for standard error.
on_terminal() {
    python3 -c '
import os, pty, subprocess, sys
terminal, end = pty.openpty()
with open(sys.argv[1], "wb") as output:
    run = subprocess.Popen(sys.argv[3:], stdin=subprocess.DEVNULL, stdout=output, stderr=end)
os.close(end)
said = b""
try:
    while part := os.read(terminal, 4096):
        said += part
except OSError:
    pass  # what Linux answers where the other end is closed
with open(sys.argv[2], "wb") as error:
    error.write(said.replace(b"\r", b""))
sys.exit(run.wait())
' "$here/output" "$here/error" "$program" "$@"
    status=$?
}

lines="$here/blank: 64 MiB read
$here/blank: 128 MiB read"

on_terminal check --progress "$demo" "$here/blank"
expect 'progress of a check' 0 'accepted, instances 0, canonical bytes 152' "$lines"

on_terminal canon --progress "$demo" "$here/blank"
expect 'progress of a canonical file' 0 "$(file)" "$lines"

on_terminal same --progress "$demo" "$here/empty" "$here/blank"
expect 'progress of a comparison' 0 'same' "$lines"

on_terminal check "$demo" "$here/blank"
expect 'a terminal, and no progress asked for' 0 'accepted, instances 0, canonical bytes 152' ''

# A step is one of 67,108,864 bytes, of which this has one, and not one of 64,000,000.
blanks 130000000 > "$here/blank"
on_terminal check --progress "$demo" "$here/blank"
expect 'progress of 130,000,000 bytes' 0 'accepted, instances 0, canonical bytes 152' "$here/blank: 64 MiB read"

run show --progress "$demo" "$here/point" --name 2
expect 'progress of show' 2 '' '*--progress*'

for command in param syntax schema check canon show same faults; do
    "$program" "$command" --help > "$here/help" 2> "$here/error" < /dev/null
    status=$?
    : > "$here/output"
    expect "help of $command: status and error" 0 '' ''
    grep -q "Usage: ${program##*/} $command" "$here/help" || { echo "help of $command: no usage" >&2; failed=1; }
done

"$program" --help > "$here/help" 2> "$here/error"
status=$?
: > "$here/output"
expect 'help: status and error' 0 '' ''
grep -q "Usage: ${program##*/}" "$here/help" || { echo 'help: no usage on standard output' >&2; failed=1; }

if [ -w /dev/full ]; then
    : > "$here/output"
    "$program" param "$here/real" > /dev/full 2> "$here/error"
    status=$?
    expect 'an answer that cannot be written' 3 '' 'write fault'

    "$program" syntax --header --count "$here/point" > /dev/full 2> "$here/error"
    status=$?
    expect 'no room for what a file says of itself' 3 '' 'write fault'

    "$program" canon "$demo" "$here/point" > /dev/full 2> "$here/error"
    status=$?
    expect 'a canonical file that cannot be written' 3 '' 'write fault'

    "$program" schema examples/demo.exp > /dev/full 2> "$here/error"
    status=$?
    expect 'a schema that cannot be written' 3 '' 'write fault'

    "$program" faults > /dev/full 2> "$here/error"
    status=$?
    expect 'a list that cannot be written' 3 '' 'write fault'

    "$program" faults 11 > /dev/full 2> "$here/error"
    status=$?
    expect 'an explanation that cannot be written' 3 '' 'write fault'

    "$program" --help > /dev/full 2> "$here/error"
    status=$?
    expect 'help that cannot be written' 3 '' 'write fault'

    : > "$here/error"
    "$program" param "$here/two" > "$here/output" 2> /dev/full
    status=$?
    expect 'a refusal whose line cannot be written' 3 '' ''

    "$program" frob > "$here/output" 2> /dev/full
    status=$?
    expect 'usage that cannot be written' 3 '' ''

    "$program" param "$here/none" > "$here/output" 2> /dev/full
    status=$?
    expect 'a missing file whose line cannot be written' 3 '' ''
fi

exit "$failed"
