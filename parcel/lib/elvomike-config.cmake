# The proved archives, x86-64 code, as targets: elvomike::trap and those beside it, and all of them as elvomike::elvomike.
get_filename_component(elvomike_prefix "${CMAKE_CURRENT_LIST_DIR}/../../.." ABSOLUTE)

if(NOT TARGET elvomike::elvomike)
    add_library(elvomike::elvomike INTERFACE IMPORTED)
    foreach(archive @ARCHIVES@)
        add_library(elvomike::${archive} STATIC IMPORTED)
        set_target_properties(elvomike::${archive} PROPERTIES
            IMPORTED_LOCATION "${elvomike_prefix}/lib/libelvomike-${archive}.a"
            INTERFACE_INCLUDE_DIRECTORIES "${elvomike_prefix}/include")
        set_property(TARGET elvomike::elvomike APPEND PROPERTY INTERFACE_LINK_LIBRARIES elvomike::${archive})
    endforeach()
endif()
