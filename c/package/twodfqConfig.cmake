# twodfq::twodfq is the shared library, and twodfq::twodfq_static the archive.
if(TARGET twodfq::twodfq)
    return()
endif()

get_filename_component(_twodfq_prefix "${CMAKE_CURRENT_LIST_DIR}/../../.." ABSOLUTE)
add_library(twodfq::twodfq SHARED IMPORTED)
set_target_properties(twodfq::twodfq PROPERTIES
    IMPORTED_LOCATION "${_twodfq_prefix}/lib/libtwodfq.so.@version@"
    IMPORTED_SONAME libtwodfq.so.@version@
    INTERFACE_INCLUDE_DIRECTORIES "${_twodfq_prefix}/include")
add_library(twodfq::twodfq_static STATIC IMPORTED)
set_target_properties(twodfq::twodfq_static PROPERTIES
    IMPORTED_LOCATION "${_twodfq_prefix}/lib/libtwodfq.a"
    INTERFACE_INCLUDE_DIRECTORIES "${_twodfq_prefix}/include")
unset(_twodfq_prefix)
