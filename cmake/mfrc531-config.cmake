# The installed library as the target mfrc531::mfrc531, for
#
#   find_package(mfrc531 REQUIRED)
#   target_link_libraries(firmware mfrc531::mfrc531)
#
# This file lies in PREFIX/lib/cmake/mfrc531, and the paths are computed from there: the installed files may be moved together.
get_filename_component(_mfrc531_prefix "${CMAKE_CURRENT_LIST_FILE}" REALPATH)
get_filename_component(_mfrc531_prefix "${_mfrc531_prefix}/../../../.." ABSOLUTE)

set(_mfrc531_fault "")
foreach(_mfrc531_file lib/libmfrc531.a include/mfrc531.h)
    if(NOT EXISTS "${_mfrc531_prefix}/${_mfrc531_file}")
        set(_mfrc531_fault "${_mfrc531_prefix}/${_mfrc531_file} is missing")
    endif()
endforeach()
if(CMAKE_SYSTEM_PROCESSOR AND NOT CMAKE_SYSTEM_PROCESSOR MATCHES "^(x86_64|amd64|AMD64)$")
    set(_mfrc531_fault "the library is for x86-64, and the project is built for ${CMAKE_SYSTEM_PROCESSOR}")
elseif(CMAKE_SIZEOF_VOID_P AND NOT CMAKE_SIZEOF_VOID_P EQUAL 8)
    set(_mfrc531_fault "the library is for x86-64, and the project has pointers of ${CMAKE_SIZEOF_VOID_P} bytes")
endif()

if(_mfrc531_fault)
    set(mfrc531_FOUND FALSE)
    set(mfrc531_NOT_FOUND_MESSAGE "${_mfrc531_fault}")
elseif(NOT TARGET mfrc531::mfrc531)
    add_library(mfrc531::mfrc531 STATIC IMPORTED)
    set_target_properties(mfrc531::mfrc531 PROPERTIES
        IMPORTED_LOCATION "${_mfrc531_prefix}/lib/libmfrc531.a"
        IMPORTED_LINK_INTERFACE_LANGUAGES C
        INTERFACE_INCLUDE_DIRECTORIES "${_mfrc531_prefix}/include")
endif()
unset(_mfrc531_fault)
unset(_mfrc531_file)
unset(_mfrc531_prefix)
