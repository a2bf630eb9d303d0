# For find_package(mixegorta): the target mixegorta::mixegorta links the archive, mixegorta::shared the shared object.
get_filename_component(_mixegorta_prefix "${CMAKE_CURRENT_LIST_DIR}/../../.." ABSOLUTE)
if(NOT TARGET mixegorta::mixegorta)
    add_library(mixegorta::mixegorta STATIC IMPORTED)
    set_target_properties(mixegorta::mixegorta PROPERTIES
        IMPORTED_LOCATION "${_mixegorta_prefix}/lib/libmixegorta.a"
        INTERFACE_INCLUDE_DIRECTORIES "${_mixegorta_prefix}/include")
    add_library(mixegorta::shared SHARED IMPORTED)
    set_target_properties(mixegorta::shared PROPERTIES
        IMPORTED_LOCATION "${_mixegorta_prefix}/lib/libmixegorta.so"
        INTERFACE_INCLUDE_DIRECTORIES "${_mixegorta_prefix}/include")
endif()
unset(_mixegorta_prefix)
