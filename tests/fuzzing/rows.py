"""Texts to begin with: those that the standard's rules turn on, for mutations to start from."""

import pathlib

EXAMPLES = pathlib.Path(__file__).resolve().parent.parent.parent / "examples"

PARAMETERS = [
    b"+012.500E+03",
    b"+007",
    b"-0",
    b"123.450",
    b"1.E0000000001",
    b"0.E999999999",
    b"1.E9999",
    b"10.E9999",
    b"0.E1000000000",
    b"0.1E10000",
    b"1.E-9999",
    b"0.01E-9998",
    b"1.E",
    b"1.EX",
    b"1.E+",
    b"1.END",
    b"+x",
    b"+.5",
    b".5",
    b".T.",
    b".t.",
    b"$",
    b"*",
    b'"23B"',
    b'"0"',
    b'"30"',
    b'"31"',
    b'"33B"',
    b'"1"',
    b'"33',
    b"#007",
    b"#)",
    b"#A",
    b"#18446744073709551615",
    b"#18446744073709551616",
    b"#00018446744073709551615",
    b"&A",
    b"@1",
    b"1 2",
    b"1 'a",
    b"1 /",
    b"1 2X",
    b"1 +x",
    b"1/",
    b"1/**/",
    b"/*/ 1",
    b"/***/1",
    b"(1)",
    b"RED",
    b"RED-",
    b"!RED",
    b"!1",
    b"",
    b" ",
    b"ISO-10303-21",
    b"ISO-10303-22",
    b"ISO-",
    b"END-ISO-10303-21",
    b"END-ISO-10303-21A",
    b"ISO-10303-21-",
    b"\\N\\1",
    rb"'caf\X\E9'",
    rb"'caf\S\i'",
    rb"'caf\X2\00E9\X0\'",
    rb"'\PA\caf\S\i'",
    "'caf\u00e9'".encode(),
    rb"'\S\'x'",
    rb"'\S\\'",
    rb"'\S\'",
    rb"'it''s \\'",
    b"'a\nb'",
    b"'a' 'b'",
    b"'caf\xe9'",
    b"'\xed\xa0\x80'",
    b"'\xf4\x90\x80\x80'",
    b"'\xc0\x80'",
    b"'\xf0\x9f\x98\x80'",
    b"'\xe9\n\x80'",
    rb"'\X2\D83DDE00\X0\'",
    rb"'\X4\0001F600\X0\'",
    rb"'\X2\D83D\X0\'",
    rb"'\X2\D83D'",
    rb"'\X2\DE00\X0\'",
    rb"'\X2\D83D0041\X0\'",
    rb"'\X2\D83D\X0\\X2\DE00\X0\'",
    rb"'\X4\0000D83D\X0\'",
    rb"'\X4\00110000\X0\'",
    rb"'\X4\0001F60000000041\X0\'",
    rb"'\X2\00E900E8\X0\'",
    rb"'\X2\00e9\X0\'",
    rb"'\X2\\X0\'",
    rb"'\X2\00E9\X1\'",
    rb"'a\PB\b'",
    rb"'\N\'",
    rb"'\F\'",
    b"'\\X\\E\n9'",
    b"'a",
    rb"'a\X2\00",
    b"/* */ 'a' /* */",
    b"/* a",
    b"1.5E3E",
    b"1..T.",
    b"$$",
    b"1.\x00",
    b"1.\x80",
    b"1.e5",
]

DEMO = (EXAMPLES / "demo.exp").read_text()

DIAMOND = """SCHEMA diamond;
ENTITY r; k : INTEGER; END_ENTITY;
ENTITY a SUBTYPE OF (r); p : INTEGER; END_ENTITY;
ENTITY b SUBTYPE OF (r); q : INTEGER; END_ENTITY;
ENTITY c SUBTYPE OF (a, b); z : INTEGER; END_ENTITY;
END_SCHEMA;
"""

REDECL = """SCHEMA redecl;
ENTITY r; k : NUMBER; END_ENTITY;
ENTITY a SUBTYPE OF (r); SELF\\r.k : INTEGER; END_ENTITY;
ENTITY b SUBTYPE OF (r); SELF\\r.k : REAL; END_ENTITY;
ENTITY c SUBTYPE OF (a, b); SELF\\a.k : OPTIONAL INTEGER; END_ENTITY;
ENTITY d SUBTYPE OF (r); DERIVE SELF\\r.k : NUMBER := 1; END_ENTITY;
END_SCHEMA;
"""

WIDE = """SCHEMA wide;
ENTITY e; s : STRING(3); f : STRING(2) FIXED; b : BINARY(4);
o : ARRAY [1:2] OF OPTIONAL INTEGER; n : BOOLEAN; END_ENTITY;
ENTITY g; b : BINARY(6) FIXED; l : LOGICAL; u : LIST [2:3] OF UNIQUE STRING; a : ARRAY [0:2] OF OPTIONAL UNIQUE NUMBER; END_ENTITY;
END_SCHEMA;
"""

SOLE = """SCHEMA sole;
ENTITY s SUPERTYPE OF (ONEOF (a, b)); k : INTEGER; END_ENTITY;
ENTITY a SUBTYPE OF (s); END_ENTITY;
ENTITY b SUBTYPE OF (s); END_ENTITY;
ENTITY c SUBTYPE OF (s); END_ENTITY;
ENTITY d SUBTYPE OF (a); END_ENTITY;
END_SCHEMA;
"""

KINDS = """SCHEMA kinds;
TYPE len = REAL; END_TYPE; TYPE pos = len; END_TYPE; TYPE cnt = NUMBER; END_TYPE; TYPE tally = INTEGER; END_TYPE;
TYPE lab = STRING(6); END_TYPE; TYPE col = ENUMERATION OF (red, green, blue_2); END_TYPE; TYPE hue = col; END_TYPE;
TYPE reals = LIST [1:3] OF len; END_TYPE; TYPE nest = LIST OF item; END_TYPE; TYPE shades = SET OF col; END_TYPE;
TYPE meas = SELECT (len, tally, reals, nest, shades); END_TYPE;
TYPE item = SELECT (meas, pt, col, hue); END_TYPE;
ENTITY base ABSTRACT SUPERTYPE; name : OPTIONAL STRING; END_ENTITY;
ENTITY pt SUBTYPE OF (base); c : LIST [1:3] OF len; END_ENTITY;
ENTITY fixedpt SUBTYPE OF (pt); DERIVE SELF\\pt.c : LIST [1:3] OF len := ?; END_ENTITY;
ENTITY nums; a : REAL; b : NUMBER; c : INTEGER; d : pos; e : cnt; f : OPTIONAL tally; END_ENTITY;
ENTITY words; a : STRING; b : lab; c : STRING(2) FIXED; d : BINARY(4); e : OPTIONAL hue; f : BOOLEAN; g : LOGICAL; END_ENTITY;
ENTITY sets; a : SET OF pt; b : SET [1:4] OF REAL; c : BAG OF BAG OF NUMBER; d : LIST OF UNIQUE lab;
e : ARRAY [1:3] OF OPTIONAL UNIQUE INTEGER; f : SET OF item; g : SET OF SET OF NUMBER; END_ENTITY;
ENTITY refs; a : pt; b : OPTIONAL base; c : item; d : meas; e : LIST OF item; END_ENTITY;
ENTITY r; k : INTEGER; END_ENTITY; ENTITY x1 SUBTYPE OF (r); p : STRING; END_ENTITY;
ENTITY x2 SUBTYPE OF (r); q : SET OF INTEGER; END_ENTITY;
ENTITY x3 SUBTYPE OF (x1, x2); z : LIST OF REAL; END_ENTITY; ENTITY none; END_ENTITY;
END_SCHEMA;
"""

# Schemas with which files are made.
SCHEMAS = [DEMO, DIAMOND, REDECL, WIDE, SOLE, KINDS]

# Schema texts, each with something that a rule turns on.
SCHEMA_TEXTS = [
    *SCHEMAS,
    "(* not closed",
    "SCHEMA s; END_SCHEMA",
    "SCHEMA s; ENTITY a; END_ENTITY; ENTITY A; END_ENTITY; END_SCHEMA;",
    "SCHEMA s; ENTITY a; x : foo; END_ENTITY; END_SCHEMA;",
    "SCHEMA s; ENTITY a SUBTYPE OF (b); END_ENTITY; ENTITY b SUBTYPE OF (a); END_ENTITY; END_SCHEMA;",
    "SCHEMA s; USE FROM t; END_SCHEMA;",
    "SCHEMA s; ENTITY a; x : LIST [3:1] OF REAL; END_ENTITY; END_SCHEMA;",
    "SCHEMA s; ENTITY a; y : REAL; END_ENTITY; ENTITY b SUBTYPE OF (a); DERIVE SELF\\a.z : REAL := 0.0; END_ENTITY; END_SCHEMA;",
    "(* a (* b *) c *) SCHEMA t 'v1'; FUNCTION f : REAL; FUNCTION g : REAL; END_FUNCTION; END_FUNCTION; END_SCHEMA; -- end",
    'SCHEMA t "v1"; END_SCHEMA;',
    "SCHEMA s; TYPE t = LIST [0:0] OF REAL; END_TYPE; TYPE u = LIST OF t; END_TYPE; TYPE v = LIST OF v; END_TYPE; END_SCHEMA;",
    "SCHEMA s; TYPE t = STRING(0); END_TYPE; END_SCHEMA;",
    "SCHEMA s; TYPE t = STRING(?); END_TYPE; END_SCHEMA;",
    "SCHEMA s; TYPE t = STRING(4294967295) FIXED; END_TYPE; TYPE u = BINARY(00004294967296); END_TYPE; END_SCHEMA;",
    "SCHEMA s; TYPE t = ARRAY [1:?] OF REAL; END_TYPE; END_SCHEMA;",
    "SCHEMA s; TYPE t = LIST [?:1] OF REAL; END_TYPE; END_SCHEMA;",
    "SCHEMA s; TYPE t = LIST [1+2:3] OF REAL; END_TYPE; END_SCHEMA;",
    "SCHEMA s; TYPE t = LIST [1:?+1] OF REAL (6); END_TYPE; END_SCHEMA;",
    "SCHEMA s; TYPE t = LIST [1 2:3] OF REAL; END_TYPE; END_SCHEMA;",
    "SCHEMA s; TYPE t = LIST [] OF REAL; END_TYPE; END_SCHEMA;",
    "SCHEMA s; TYPE t = REAL (n); END_TYPE; END_SCHEMA;",
    "SCHEMA s; TYPE t = REAL (0); END_TYPE; TYPE s = SELECT (t); END_TYPE; TYPE u = s; END_TYPE; END_SCHEMA;",
    "SCHEMA s; TYPE a = b; END_TYPE; TYPE b = SELECT (a); END_TYPE; END_SCHEMA;",
    "SCHEMA s; TYPE a = SELECT (b); END_TYPE; TYPE b = SELECT (a); END_TYPE; END_SCHEMA;",
    "SCHEMA s; TYPE a = b; END_TYPE; TYPE b = a; END_TYPE; END_SCHEMA;",
    "SCHEMA s; TYPE a = SELECT (); END_TYPE; END_SCHEMA;",
    "SCHEMA s; TYPE a = SELECT x; END_TYPE; END_SCHEMA;",
    "SCHEMA s; TYPE a = ENUMERATION OF (x, y, x); END_TYPE; END_SCHEMA;",
    "SCHEMA s; ENTITY e; END_ENTITY; TYPE a = e; END_TYPE; END_SCHEMA;",
    "SCHEMA s; ENTITY e SUPERTYPE OF (ONEOF (a, a)); END_ENTITY; ENTITY a; END_ENTITY; END_SCHEMA;",
    "SCHEMA s; ENTITY e SUPERTYPE OF (ONEOF (a, z)); END_ENTITY; ENTITY a; END_ENTITY; END_SCHEMA;",
    "SCHEMA s; ENTITY e ABSTRACT SUPERTYPE OF (ONEOF (a, b) ANDOR c); END_ENTITY; ENTITY a; END_ENTITY; END_SCHEMA;",
    "SCHEMA s; ENTITY e SUPERTYPE OF (ONEOF (a, use)); END_ENTITY; ENTITY a; END_ENTITY; END_SCHEMA;",
    "SCHEMA s; ENTITY e SUBTYPE OF (a) SUPERTYPE OF (b); END_ENTITY; ENTITY a; END_ENTITY; END_SCHEMA;",
    "SCHEMA s; ENTITY a; x : REAL; DERIVE y : REAL := 1; INVERSE i : b FOR x; UNIQUE u : x; WHERE w : x > 0; END_ENTITY; END_SCHEMA;",
    "SCHEMA s; ENTITY a; DERIVE y : REAL := 1; END_ENTITY; ENTITY b SUBTYPE OF (a); DERIVE SELF\\a.y : REAL := 2; END_ENTITY; END_SCHEMA;",
    "SCHEMA s; ENTITY a; x : REAL; END_ENTITY; ENTITY b; x : REAL; END_ENTITY; ENTITY c SUBTYPE OF (a, b); END_ENTITY;"
    " ENTITY d SUBTYPE OF (c); SELF\\c.x : REAL; END_ENTITY; END_SCHEMA;",
    "SCHEMA s; ENTITY a; x : REAL; END_ENTITY; ENTITY b SUBTYPE OF (a); END_ENTITY; ENTITY c SUBTYPE OF (b);"
    " SELF\\b.x : REAL; SELF\\a.x : REAL; END_ENTITY; END_SCHEMA;",
    "SCHEMA s; ENTITY a; x : REAL; SELF\\a.x : REAL; END_ENTITY; END_SCHEMA;",
    "SCHEMA s; TYPE t = REAL; END_TYPE; ENTITY a; SELF\\t.x : REAL; END_ENTITY; END_SCHEMA;",
    "SCHEMA s; ENTITY a; SELF\\z.x : REAL; END_ENTITY; END_SCHEMA;",
    "SCHEMA s; RULE r FOR (a); END_RULE; CONSTANT c : REAL := 1; END_CONSTANT; SUBTYPE_CONSTRAINT q; END_SUBTYPE_CONSTRAINT; END_SCHEMA;",
    "SCHEMA s; PROCEDURE p; FUNCTION f; END_PROCEDURE; END_SCHEMA;",
    "SCHEMA s; ENTITY end; andor : REAL; END_ENTITY; END_SCHEMA; x",
    "SCHEMA s; (*) *) END_SCHEMA;",
    "SCHEMA s; ENTITY a; x, USE : REAL; END_ENTITY; END_SCHEMA;",
    "SCHEMA s; ENTITY a; x : AGGREGATE OF REAL; END_ENTITY; END_SCHEMA;",
    "SCHEMA s; ENTITY a; x : " + "LIST OF " * 32 + "REAL; END_ENTITY; END_SCHEMA;",
    "SCHEMA s; ENTITY a; x : " + "SET OF " * 33 + "REAL; END_ENTITY; END_SCHEMA;",
    "SCHEMA s; ENTITY a; x : STRING FIXED; END_ENTITY; END_SCHEMA;",
    "SCHEMA s; ENTITY a; x : ARRAY OF REAL; END_ENTITY; END_SCHEMA;",
    "SCHEMA s; ENTITY a; x : SET OF UNIQUE REAL; END_ENTITY; END_SCHEMA;",
    "SCHEMA s; ENTITY a; x : LIST OF OPTIONAL REAL; END_ENTITY; END_SCHEMA;",
    "",
]

# Instances under each schema of SCHEMAS.
INSTANCES = {
    "DEMO": [
        "#2 = POINT($, 1.0, 10.E-1);",
        "#007=POINT('a',-0.0,0.00250);",
        "#1=POINT($,1.,1.);#01=POINT($,1.,1.);",
        "#1=CLOUD((),((2.,1.),(),(1.0,2.)),(TALLY(1)));",
        "#1=CLOUD((#2,#02),(),(TALLY(1)));",
        "#1=CLOUD((#2,#10),(),(TALLY(1)));#2=POINT($,1.,1.);#10=POINT($,1.,1.);",
        "#1=(POINT(1.,2.)SHAPE('a'));",
        "#1=(SHAPE($)POINT(1.,2.)MARKED(.RED.));",
        "#1=(POINT(1.,2.)MARKED(.RED.));",
        "#1=(SHAPE($)SHAPE($)POINT(1.,2.));",
        "#1=(ORIGIN()POINT(*,2.)SHAPE($));",
        "#1=(CLOUD((),(),(TALLY(1)))POINT(1.,2.)SHAPE($));",
        "#1=ORIGIN($,*,2.);",
        "#1=ORIGIN($,0.,2.);",
        "#1=ORIGIN($,$,2.);",
        "#1=POINT($,*,2.);",
        "#1=SHAPE($);",
        "#1=FOO();",
        "#1=DISTANCE(1.);",
        "#1=POINT($,1.);",
        "#1=POINT($,1,2.);",
        "#1=CLOUD((#2),(),(TALLY(1)));#2=ORIGIN($,*,2.);",
        "#1=CLOUD((#2),(),(TALLY(1)));#2=CLOUD((),(),(TALLY(1)));",
        "#1=CLOUD((#2),(),(DISTANCE(1.0),TALLY(1),#2));#2=POINT($,1.,1.);",
        "#1=CLOUD((),(),(1.0));",
        "#1=CLOUD((),(),(MEASURE(TALLY(1))));",
        "#1=CLOUD((),(),(TALLY(1),TALLY(01)));",
        "#1=CLOUD((),(),());",
        "#1=CLOUD((),(),(TALLY($)));",
        "#1=CLOUD((),(),(TALLY(*)));",
        "#00=POINT($,1.,1.);",
        "#18446744073709551615=POINT($,1.,1.);",
        "#18446744073709551616=POINT($,1.,1.);",
        "#1=POINT($," + "(" * 64 + ")" * 64 + ",1.);",
        "#1=POINT($," + "(" * 65 + ")" * 65 + ",1.);",
        "#1=POINT($," + "A(" * 64 + "1" + ")" * 64 + ",1.);",
        "#1=POINT($," + "A(" * 65 + "1" + ")" * 65 + ",1.);",
        "#1=&SCOPE",
        "\\N\\#1=POINT($,1.,1.);",
        "#1=!A();",
        "#1=A(!B(1));",
        "#1 !A",
        "#1=point();",
        "#1=POINT(;",
        "#1=();",
        "#1=A(B());",
        "#1=A(1,);",
        "#1=ENDSEC();",
        "ANCHOR;",
        "#10 = ( SHAPE('') POINT(1.E-07,-2.5)\r\n MARKED(.GREEN.) );\r\n#2= POINT('p',0.,10.);",
        "#1=POINT('it''s \\X2\\00E9\\X0\\',1.E2,2.)/**/;",
    ],
    "DIAMOND": [
        "#1=C(1,2,3,4);",
        "#1=(R(1)A(2)B(3));",
        "#1=(C(4)B(3)A(2)R(1));",
        "#1=R(1);#2=A(1,2);#3=B(1,3);",
    ],
    "REDECL": [
        "#1=R(1);",
        "#1=A(1);",
        "#1=A(1.);",
        "#1=(B()R(1.));",
        "#1=(A()B()R(1));",
        "#1=(A()B()C()R($));",
        "#1=C(1);",
        "#1=D(*);",
        "#1=(A()B()D()R(*));",
        "#1=R(1" + "0" * 9999 + ");",
        "#1=R(1" + "0" * 10000 + ");",
    ],
    "WIDE": [
        "#1=E('abc','xy',\"0A\",($,1),.T.);",
        "#1=E('abcd','xy',\"0A\",($,1),.T.);",
        "#1=E('abc','x',\"0A\",($,1),.T.);",
        "#1=E('abc','xy',\"23B\",($,1),.T.);",
        "#1=E('abc','xy',\"0A\",(1),.T.);",
        "#1=E('abc','xy',\"0A\",($,1),.U.);",
        "#1=G(\"23B\",.U.,('a','b'),($,1,1.));",
        "#1=G(\"23B\",.U.,('a','\\X\\61'),($,$,1.));",
        "#1=G(\"23B\",.U.,('a','b','c','d'),($,$,$));",
    ],
    "SOLE": [
        "#1=(A()B()S(1));",
        "#1=(S(1)C()A());",
        "#1=A(1);#2=S(1);",
        "#1=(A()B()D()S(1));",
        "#1=D(1);",
    ],
    "KINDS": [
        "#1=PT('a',(1.,2.));#2=FIXEDPT($,*);#3=REFS(#1,$,#2,LEN(1.),(COL(.RED.),HUE(.RED.),NEST((#1,LEN(2.)))));",
        "#1=NUMS(1.,1,1,1.,1.,$);",
        "#1=SETS((),(1.,2.),((1,1.),()),('a'),($,1,2),(LEN(1.),SHADES((.RED.,.GREEN.))),((1,2),(2.,3),()));",
        "#1=WORDS('a','abcdef','ab',\"0A\",.RED.,.T.,.U.);",
        "#1=(R(1)X1('a')X2((1,2)));#2=X3(1,'',(2,1),());#3=NONE();",
    ],
}

# What else may stand in a file, with DEMO: data sections, header records, and what follows.
HEADER_RECORDS = [
    "FILE_DESCRIPTION((''),'2;1');",
    "FILE_DESCRIPTION($,$);",
    "FILE_DESCRIPTION((),'');",
    "FILE_DESCRIPTION('','');",
    "FILE_DESCRIPTION(*,'');",
    "FILE_NAME('','',(''),(''),'','','');",
    "FILE_NAME($,$,$,($),$,$,$);",
    "FILE_NAME('','',(''),(''),'','');",
    "FILE_SCHEMA(('DEMO'));",
    "FILE_SCHEMA(('demo { 1 0 10303 214 1 1 1 1 }'));",
    "FILE_SCHEMA(('\\X\\44EMO'));",
    "FILE_SCHEMA(('DEMO_X'));",
    "FILE_SCHEMA((' DEMO'));",
    "FILE_SCHEMA(('OTHER'));",
    "FILE_SCHEMA($);",
    "FILE_SCHEMA(('DEMO','DEMO'));",
    "ENDSEC(1);",
    "!MY_RECORD(1.0,.A.);",
    "FURTHER();",
    "FURTHER(!A((1,(2.,$)),*));",
    "FURTHER(#1);",
    "DATA('a');",
    "HEADER(1);",
]

SECTION_LINES = [
    "DATA;",
    "DATA('a',('DEMO'));",
    "DATA('b',('demo'));",
    "DATA('',('DEMO'));",
    "DATA('a!',('DEMO'));",
    "DATA('a''b',('DEMO x'));",
    "DATA('\\X\\61',('DEMO'));",
    "DATA('a',('OTHER'));",
    "DATA('a');",
    "DATA($,('DEMO'));",
    "DATA('a',('DEMO','DEMO'));",
    "DATA('a',(#1));",
    "DATA(!A);",
    "DATA('a',('DEMO')) !A",
    "DATA !A",
    "ANCHOR;",
    "REFERENCE;",
    "SIGNATURE;",
]

BEHIND = ["", "\n", "/* end */", "\x1a", "X", "SIGNATURE;", "SIGNATURE", "1.E99999", "X-", "/*", "/", "'a", "ISO-", "!A", "1."]
