# SPDX-License-Identifier: MIT OR Apache-2.0
# The package nbt for CMake: after find_package(nbt CONFIG) nbt::nbt is the library, with the folder of its header. This file stands in
# cmake/nbt, in the folder that libnbt.a is in.
get_filename_component(nbt_libraries "${CMAKE_CURRENT_LIST_DIR}/../.." ABSOLUTE)
find_path(nbt_headers nbt.h PATHS "${nbt_libraries}/../include" "${nbt_libraries}/../../include" NO_DEFAULT_PATH NO_CMAKE_FIND_ROOT_PATH)
mark_as_advanced(nbt_headers)
if(NOT nbt_headers OR NOT EXISTS "${nbt_libraries}/libnbt.a")
    set(nbt_FOUND FALSE)
    set(nbt_NOT_FOUND_MESSAGE "nbt.h or libnbt.a is not there")
elseif(NOT TARGET nbt::nbt)
    add_library(nbt::nbt STATIC IMPORTED)
    set_target_properties(nbt::nbt PROPERTIES IMPORTED_LOCATION "${nbt_libraries}/libnbt.a" INTERFACE_INCLUDE_DIRECTORIES "${nbt_headers}")
endif()
