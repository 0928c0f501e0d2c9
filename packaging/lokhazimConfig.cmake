# Lokhazim as an imported target: lokhazim::lokhazim, the library with all of its headers.
#
#     find_package(lokhazim REQUIRED)
#     target_link_libraries(program PRIVATE lokhazim::lokhazim)

get_filename_component(_lokhazim_prefix "${CMAKE_CURRENT_LIST_DIR}/../../.." ABSOLUTE)

if(NOT TARGET lokhazim::lokhazim)
    add_library(lokhazim::lokhazim STATIC IMPORTED)
    set_target_properties(lokhazim::lokhazim PROPERTIES
        IMPORTED_LOCATION "${_lokhazim_prefix}/lib/liblokhazim.a"
        IMPORTED_LINK_INTERFACE_LANGUAGES C
        INTERFACE_INCLUDE_DIRECTORIES "${_lokhazim_prefix}/include"
        INTERFACE_COMPILE_FEATURES c_std_11)
endif()

foreach(_lokhazim_part IN LISTS ${CMAKE_FIND_PACKAGE_NAME}_FIND_COMPONENTS)
    if(${CMAKE_FIND_PACKAGE_NAME}_FIND_REQUIRED_${_lokhazim_part})
        set(${CMAKE_FIND_PACKAGE_NAME}_FOUND FALSE)
        set(${CMAKE_FIND_PACKAGE_NAME}_NOT_FOUND_MESSAGE "lokhazim has no part '${_lokhazim_part}': it is one library since version 0.7.0.")
    endif()
endforeach()
unset(_lokhazim_part)
unset(_lokhazim_prefix)
