# find_package(p21) gives the targets p21::p21, the shared library, and p21::p21_static, the static one where it is there. C++
# includes p21.hpp.

get_filename_component(p21_PREFIX "${CMAKE_CURRENT_LIST_DIR}/../../.." ABSOLUTE)

if(NOT TARGET p21::p21)
    add_library(p21::p21 SHARED IMPORTED)
    set_target_properties(p21::p21 PROPERTIES INTERFACE_INCLUDE_DIRECTORIES "${p21_PREFIX}/include")
    if(EXISTS "${p21_PREFIX}/bin/p21.dll")
        set_target_properties(p21::p21 PROPERTIES
            IMPORTED_LOCATION "${p21_PREFIX}/bin/p21.dll"
            IMPORTED_IMPLIB "${p21_PREFIX}/lib/p21.lib")
    else()
        set_target_properties(p21::p21 PROPERTIES
            IMPORTED_LOCATION "${p21_PREFIX}/lib/libp21.so.@VERSION@"
            IMPORTED_SONAME libp21.so.0)
    endif()
    if(EXISTS "${p21_PREFIX}/lib/libp21.a")
        add_library(p21::p21_static STATIC IMPORTED)
        set_target_properties(p21::p21_static PROPERTIES
            IMPORTED_LOCATION "${p21_PREFIX}/lib/libp21.a"
            INTERFACE_INCLUDE_DIRECTORIES "${p21_PREFIX}/include")
    endif()
endif()

unset(p21_PREFIX)
