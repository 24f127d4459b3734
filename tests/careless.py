"""Real files as careless exporters would have written them: each with several faults of one habit, and each fault with the place
and the number of the refusal that it is.

An edit is a pattern, what stands in its place, and how many of the places where it fits are edited, of each so many. `~49~` in
what is written says that the fault of this number stands there; the marks are taken out again.
"""

import re
from typing import NamedTuple

ANGLED, PERIODIC, SCREW, RODS, HOUSE = "Angled.step", "periodic_u_cst.step", "screw.step", "linkrods.step", "AC14-FZK-Haus.ifc"
MARK = re.compile(rb"~(\d\d?)~")


class Edit(NamedTuple):
    """Of the places where a pattern fits, every so many is written in another way, up to so many."""

    pattern: bytes
    by: bytes
    count: int = 1
    every: int = 1

    def __call__(self, text):
        fitting = written = 0

        def other(found):
            nonlocal fitting, written
            fitting += 1
            if written == self.count or (fitting - 1) % self.every:
                return found[0]
            written += 1
            return found.expand(self.by)

        edited = re.sub(self.pattern, other, text)
        assert written == self.count, (self.pattern, written)
        return edited


class LeftOut(NamedTuple):
    """Instances of an entity that aren't written, though others refer to them."""

    entity: bytes
    count: int
    every: int

    def __call__(self, text):
        lines = list(re.finditer(rb"\r?\n#(\d+) ?= ?%s\([^;]*;" % self.entity, text))[:: self.every][: self.count]
        assert len(lines) == self.count
        for line in reversed(lines):
            text = text[: line.start()] + text[line.end() :]
        for line in lines:
            text = re.sub(rb"(#%s\b)(?! ?=)" % line[1], rb"~56~\1", text)
        return text


class Joined(NamedTuple):
    """The first instances of another file behind those of a file, with the names that they had."""

    count: int

    def __call__(self, text):
        first = re.findall(rb"\n(#\d+=[^;]*;)", text)[: self.count]
        at = text.rindex(b"ENDSEC;")
        return text[:at] + b"".join(b"~40~%s\n" % instance for instance in first) + text[at:]


# By the name of the habit: the file, and the edits.
EXPORTERS = {
    "reals without a point": (
        ANGLED,
        Edit(rb"(=CARTESIAN_POINT\('',\()(-?\d+)\.0,", rb"\1~49~\2,", 12, 3),
        Edit(rb"(=DIRECTION\('',\()0\.0,", rb"\1~49~0,", 5, 7),
        Edit(rb"(=VECTOR\('',#\d+,)(\d+)\.\d+\)", rb"\1~49~\2)", 4, 9),
        Edit(rb"(=CYLINDRICAL_SURFACE\('',#\d+,)(\d+)\.\d+\)", rb"\1~49~\2)", 2),
    ),
    "a comma in place of the point": (
        ANGLED,
        Edit(rb"(=CYLINDRICAL_SURFACE\('',#\d+,)(\d+)\.(\d+)\)", rb"\1\2,~45~\3)", 5),
        Edit(rb"(=CIRCLE\('',#\d+,)(\d+)\.(\d+)\)", rb"\1\2,~45~\3)", 6, 4),
        Edit(rb"(=VECTOR\('',#\d+,)(\d+)\.(\d+)\)", rb"\1\2,~45~\3)", 8, 9),
    ),
    "no value where a name is empty": (
        SCREW,
        Edit(rb"( = CARTESIAN_POINT\()''", rb"\1~46~$", 10, 50),
        Edit(rb"( = DIRECTION\()''", rb"\1~46~$", 3, 9),
        Edit(rb"( = EDGE_LOOP\()''", rb"\1~46~$", 2, 3),
        Edit(rb"( = AXIS2_PLACEMENT_3D\()''", rb"\1~46~$", 4),
    ),
    "no name at all": (
        RODS,
        Edit(rb"( = CARTESIAN_POINT\()'',\(", rb"\1~45~(", 20, 500),
        Edit(rb"( = AXIS2_PLACEMENT_3D\()'',#", rb"\1~45~#", 5, 9),
        Edit(rb"( = VECTOR\()'',#", rb"\1~45~#", 5),
    ),
    "truth in other spellings": (
        ANGLED,
        Edit(rb"(=ORIENTED_EDGE\('',\*,\*,#\d+,)\.T\.\)", rb"\1~53~.TRUE.)", 8, 5),
        Edit(rb"(=FACE_OUTER_BOUND\('',#\d+,)\.T\.\)", rb"\1~49~'T')", 3),
        Edit(rb"(=ADVANCED_FACE\('',\([^)]*\),#\d+,)\.[TF]\.\)", rb"\1~49~1)", 3, 8),
    ),
    "stars and dollars exchanged": (
        ANGLED,
        Edit(rb"(=ORIENTED_EDGE\('',)\*,\*,", rb"\1~48~$,$,", 6, 11),
        Edit(rb"(\(NAMED_UNIT\()\*(\)PLANE)", rb"\1~48~$\2"),
        Edit(rb"(SI_UNIT\()\$(,\.STERADIAN)", rb"\1~47~*\2"),
    ),
    "measures without their type": (
        ANGLED,
        Edit(rb"(=PLANE_ANGLE_MEASURE_WITH_UNIT\()PLANE_ANGLE_MEASURE\(([^)]*)\)", rb"\1~54~\2"),
        Edit(rb"(=UNCERTAINTY_MEASURE_WITH_UNIT\()LENGTH_MEASURE\(([^)]*)\)", rb"\1~54~\2"),
        Edit(rb"(=SHAPE_DEFINITION_REPRESENTATION\()#42", rb"\1~54~'#42'"),
    ),
    "points that aren't written": (PERIODIC, LeftOut(b"CARTESIAN_POINT", 6, 80), LeftOut(b"EDGE_CURVE", 1, 1)),
    "references that are off by one": (
        SCREW,
        Edit(rb"(#(\d+) = VERTEX_POINT\('',)#\d+", rb"\1~57~#\2", 7, 2),
        Edit(rb"(#(\d+) = CIRCLE\('',)#\d+", rb"\1~57~#\2", 3, 3),
        Edit(rb"(#(\d+) = EDGE_CURVE\('',#\d+,)#\d+", rb"\1~57~#\2", 4, 5),
    ),
    "two files as one": (PERIODIC, Joined(25)),
    "lists that stay empty": (
        RODS,
        Edit(rb"( = EDGE_LOOP\('',)\([^)]*\)", rb"\1~51~()", 5, 8),
        Edit(rb"( = ADVANCED_FACE\('',)\(#\d+\)", rb"\1~51~()", 4, 4),
        Edit(rb"( = CARTESIAN_POINT\('',)\([^)]*\)", rb"\1~51~()", 3, 999),
        Edit(rb"( = DIRECTION\('',)\([^)]*\)", rb"\1~51~(1.,0.,0.,0.)", 2, 99),
    ),
    "elements of sets twice": (
        ANGLED,
        Edit(rb"(=ADVANCED_FACE\('',\((#\d+))\)", rb"\1,~52~\2)", 4, 6),
        Edit(rb"(GLOBAL_UNIT_ASSIGNED_CONTEXT\(\((#\d+),#\d+,)#\d+", rb"\1~52~\2"),
        Edit(rb"(=CLOSED_SHELL\('',\((#\d+),)", rb"\1~52~\2,"),
    ),
    "supertypes in place of what is meant": (
        HOUSE,
        Edit(rb"= IFCWALLSTANDARDCASE\(", rb"= ~42~IFCBUILDINGELEMENT(", 4, 3),
        Edit(rb"= IFCSLAB\(", rb"= ~42~IFCPRODUCT("),
        Edit(rb"= IFCSIUNIT\(", rb"= ~42~IFCNAMEDUNIT(", 2, 3),
    ),
    "parts of units": (
        ANGLED,
        Edit(rb"\(LENGTH_UNIT\(\)NAMED_UNIT\(\*\)", rb"(~43~LENGTH_UNIT()"),
        Edit(rb"\(NAMED_UNIT\(\*\)(SI_UNIT\(\$,\.STER)", rb"(NAMED_UNIT(*)~44~NAMED_UNIT(*)\1"),
        Edit(
            rb"=ELLIPSE\('',(#\d+),([^,]*),([^)]*)\)",
            rb"=(CIRCLE(\2)CONIC(\1)CURVE()~58~ELLIPSE(\2,\3)GEOMETRIC_REPRESENTATION_ITEM()REPRESENTATION_ITEM(''))",
            2,
        ),
    ),
    "entities of another edition": (
        HOUSE,
        Edit(rb"= IFCWALLSTANDARDCASE\(", rb"= ~41~IFCWALLELEMENTEDCASE(", 3, 4),
        Edit(rb"= IFCOPENINGELEMENT\(", rb"= ~41~IFCOPENINGSTANDARDCASE(", 4, 4),
        Edit(rb"= IFCPOLYLINE\(", rb"= ~41~IFCINDEXEDPOLYCURVE(", 5, 80),
        Edit(rb"= IFCCOLOURRGB\(", rb"= ~41~IFCCOLORRGB(", 5, 9),
    ),
    "an author outside of a list": (ANGLED, Edit(rb"\('Johan'\)", rb"~30~'Johan'")),
    "texts that are cut and items that were made up": (
        HOUSE,
        Edit(rb"(= IFCRELSPACEBOUNDARY\()'(.{20})..'", rb"\1~50~'\2'", 6, 15),
        Edit(rb"(= IFCSPACE\([^;]*,\.ELEMENT\.,)\.INTERNAL\.", rb"\1~53~.INSIDE.", 3),
        Edit(rb"(= IFCSIUNIT\(\*,)\.(\w+)UNIT\.", rb"\1~53~.\2.", 4, 2),
        Edit(rb"(= IFCSURFACESTYLE\('[^']*',)\.BOTH\.", rb"\1~53~.TWO_SIDED.", 5, 400),
    ),
    "a semicolon that is missing in the middle": (
        SCREW,
        Edit(rb"(#(?:20|22) = CARTESIAN_POINT\('',\()([^.]*)\.\d+", rb"\1~49~\2", 2),
        Edit(rb"(\n#48 = [^;]*);\n", rb"\1\n~20~"),
    ),
    "letters of a Windows page": (
        ANGLED,
        Edit(rb"(=APPLICATION_PROTOCOL_DEFINITION\('[^']*','[^']*',)(\d+)", rb"\1~49~'\2'"),
        Edit(rb"'Fot vinklad - extern'", b"'Fot f~6~\xf6r extern'"),
    ),
    "a bit of each": (
        HOUSE,
        Edit(rb"(= IFCCARTESIANPOINT\(\()(-?\d+)\.,", rb"\1~49~\2,", 10, 2),
        Edit(rb"(= IFCPOLYLOOP\()\([^)]*\)", rb"\1~51~()", 3, 4000),
        Edit(rb"(= IFCMATERIAL\()'[^']*'", rb"\1~46~$", 2),
        Edit(rb"(= IFCLOCALPLACEMENT\(\$,)(#\d+\))", rb"\1$,~45~\2", 2),
        Edit(rb"= IFCDOOR\(", rb"= ~41~IFCTUER(", 2, 2),
        Edit(rb"(= IFCWINDOW\([^;]*)\)", rb"\1,~45~$)", 3, 3),
        Edit(rb"(= IFCFACE\(\((#\d+)\))\)", rb"\1,~45~*)", 2, 5000),
        LeftOut(b"IFCCOLOURRGB", 4, 20),
    ),
}


def exported(habit, files):
    """The file of a habit: its text, and the faults in it as lines, columns and numbers. `files` are the whole ones by name."""
    name, *edits = EXPORTERS[habit]
    text = files[name]
    assert not MARK.search(text)
    for edit in edits:
        text = edit(text)
    pieces = MARK.split(text)
    made, faults = pieces[0], []
    for number, piece in zip(pieces[1::2], pieces[2::2]):
        line_start = made.rfind(b"\n") + 1
        faults.append((made.count(b"\n") + 1, len(made) - line_start + 1, int(number)))
        made += piece
    return made, faults
