# find_package(winnathey) defines winnathey::winnathey, the shared library, and winnathey::static, the archive.
get_filename_component(_winnathey_prefix "${CMAKE_CURRENT_LIST_DIR}/@PREFIX@" ABSOLUTE)
foreach(_winnathey_library "winnathey;SHARED;so.1" "static;STATIC;a")
    list(GET _winnathey_library 0 _winnathey_name)
    list(GET _winnathey_library 1 _winnathey_sort)
    list(GET _winnathey_library 2 _winnathey_suffix)
    if(NOT TARGET winnathey::${_winnathey_name})
        add_library(winnathey::${_winnathey_name} ${_winnathey_sort} IMPORTED)
        set_target_properties(winnathey::${_winnathey_name} PROPERTIES
            IMPORTED_LOCATION "${_winnathey_prefix}/@LIBDIR@/libwinnathey.${_winnathey_suffix}"
            INTERFACE_INCLUDE_DIRECTORIES "${_winnathey_prefix}/include")
    endif()
endforeach()
set_target_properties(winnathey::winnathey PROPERTIES IMPORTED_SONAME libwinnathey.so.1)
set(winnathey_VERSION "@VERSION@")
unset(_winnathey_prefix)
unset(_winnathey_name)
unset(_winnathey_sort)
unset(_winnathey_suffix)
