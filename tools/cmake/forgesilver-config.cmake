# The libraries of Forgesilver, for find_package(forgesilver):
#
#   forgesilver::lpt, and of lpt_end and lpt_ground    the archives
#   forgesilver::lpt_shared, and so on                the shared libraries
#
# A program over all but forgesilver::lpt has three functions that give memory:
# forgesilver_HEAP and forgesilver_POOL are files in which they stand, to be compiled with it.
get_filename_component(forgesilver_PREFIX "${CMAKE_CURRENT_LIST_DIR}/../../.." ABSOLUTE)
set(forgesilver_HEAP "${forgesilver_PREFIX}/share/forgesilver/heap.c")
set(forgesilver_POOL "${forgesilver_PREFIX}/share/forgesilver/pool.c")

foreach(forgesilver_NAME IN ITEMS lpt lpt_end lpt_ground)
    if(NOT TARGET forgesilver::${forgesilver_NAME})
        add_library(forgesilver::${forgesilver_NAME} STATIC IMPORTED)
        set_target_properties(forgesilver::${forgesilver_NAME} PROPERTIES
            IMPORTED_LOCATION "${forgesilver_PREFIX}/lib/lib${forgesilver_NAME}.a"
            INTERFACE_INCLUDE_DIRECTORIES "${forgesilver_PREFIX}/include")
        add_library(forgesilver::${forgesilver_NAME}_shared SHARED IMPORTED)
        set_target_properties(forgesilver::${forgesilver_NAME}_shared PROPERTIES
            IMPORTED_LOCATION "${forgesilver_PREFIX}/lib/lib${forgesilver_NAME}.so.0"
            IMPORTED_SONAME "lib${forgesilver_NAME}.so.0"
            INTERFACE_INCLUDE_DIRECTORIES "${forgesilver_PREFIX}/include")
    endif()
endforeach()
foreach(forgesilver_NAME IN ITEMS lpt_end lpt_ground)
    set_property(TARGET forgesilver::${forgesilver_NAME} PROPERTY INTERFACE_LINK_LIBRARIES forgesilver::lpt)
    set_property(TARGET forgesilver::${forgesilver_NAME}_shared PROPERTY
        INTERFACE_LINK_LIBRARIES forgesilver::lpt_shared)
endforeach()
unset(forgesilver_NAME)
