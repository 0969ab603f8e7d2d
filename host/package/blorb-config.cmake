# find_package(blorb 2) gives blorb::blorb, the archive, which a program carries in itself, blorb::shared, the shared object, and blorb::store, the
# library that saves files, over the archive.
get_filename_component(blorb_lib "${CMAKE_CURRENT_LIST_DIR}/../.." ABSOLUTE)
get_filename_component(blorb_prefix "${blorb_lib}/.." ABSOLUTE)
if(NOT TARGET blorb::blorb)
    add_library(blorb::blorb STATIC IMPORTED)
    set_target_properties(blorb::blorb PROPERTIES
        IMPORTED_LOCATION "${blorb_lib}/libblorb.a"
        INTERFACE_INCLUDE_DIRECTORIES "${blorb_prefix}/include")
    add_library(blorb::store STATIC IMPORTED)
    set_target_properties(blorb::store PROPERTIES
        IMPORTED_LOCATION "${blorb_lib}/libblorb_store.a"
        INTERFACE_LINK_LIBRARIES blorb::blorb
        INTERFACE_INCLUDE_DIRECTORIES "${blorb_prefix}/include")
    add_library(blorb::shared SHARED IMPORTED)
    set_target_properties(blorb::shared PROPERTIES
        IMPORTED_LOCATION "${blorb_lib}/libblorb.so.@VERSION@"
        IMPORTED_SONAME "libblorb.so.@MAJOR@"
        INTERFACE_INCLUDE_DIRECTORIES "${blorb_prefix}/include")
endif()
unset(blorb_lib)
unset(blorb_prefix)
