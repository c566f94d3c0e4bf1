# The target conductor::conductor, where it was installed: find_package(conductor 0.2 REQUIRED), target_link_libraries(board PRIVATE conductor::conductor)
get_filename_component(conductor_prefix "${CMAKE_CURRENT_LIST_DIR}/../../.." ABSOLUTE)
if(NOT TARGET conductor::conductor)
    add_library(conductor::conductor STATIC IMPORTED)
    set_target_properties(conductor::conductor PROPERTIES IMPORTED_LOCATION "${conductor_prefix}/lib/libconductor.a"
                          INTERFACE_INCLUDE_DIRECTORIES "${conductor_prefix}/include" IMPORTED_LINK_INTERFACE_LANGUAGES C)
endif()
unset(conductor_prefix)
