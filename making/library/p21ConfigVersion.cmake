# A version fits where it is the same or later and has the same first number; before 1.0 the same second number too, since each of
# these may change what a program is compiled over.

set(PACKAGE_VERSION "@VERSION@")

if(PACKAGE_VERSION VERSION_LESS PACKAGE_FIND_VERSION)
    set(PACKAGE_VERSION_COMPATIBLE FALSE)
else()
    string(REGEX MATCH "^[0-9]+\\.[0-9]+" p21_HAS "${PACKAGE_VERSION}")
    string(REGEX MATCH "^[0-9]+(\\.[0-9]+)?" p21_WANTED "${PACKAGE_FIND_VERSION}")
    if(p21_WANTED STREQUAL "" OR p21_HAS STREQUAL p21_WANTED OR "${PACKAGE_FIND_VERSION_COUNT}" EQUAL 1 AND p21_HAS MATCHES "^${p21_WANTED}\\.")
        set(PACKAGE_VERSION_COMPATIBLE TRUE)
    else()
        set(PACKAGE_VERSION_COMPATIBLE FALSE)
    endif()
    if(PACKAGE_FIND_VERSION VERSION_EQUAL PACKAGE_VERSION)
        set(PACKAGE_VERSION_EXACT TRUE)
    endif()
endif()
