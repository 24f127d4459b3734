"""What files of the tests have around their instances: a header that says next to nothing, with the name of a schema, and the ends."""

NAMELESS = "ISO-10303-21;\nHEADER;\nFILE_DESCRIPTION((''),'2;1');\nFILE_NAME('','',(''),(''),'','','');\n"
END = "END-ISO-10303-21;\n"
# What stands behind the instances of one data section.
BACK = f"ENDSEC;\n{END}"


def header(schema):
    """The beginning of a file of a schema, up to its data sections."""
    return f"{NAMELESS}FILE_SCHEMA(('{schema}'));\nENDSEC;\n"


def front(schema):
    """What stands in front of the instances of one data section without a name."""
    return f"{header(schema)}DATA;\n"


def file_of(schema, instances):
    """A file with these lines in one data section without a name."""
    return f"{front(schema)}{instances}{BACK}"
