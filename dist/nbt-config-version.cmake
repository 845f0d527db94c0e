# SPDX-License-Identifier: MIT OR Apache-2.0
# The version, for find_package(nbt 0.1). Before 1.0.0 a MINOR may change a call, so another one doesn't fit.
set(PACKAGE_VERSION 0.1.0)
string(REGEX REPLACE "^([0-9]+\\.[0-9]+).*" "\\1" nbt_minor "${PACKAGE_VERSION}")
if(PACKAGE_FIND_VERSION VERSION_GREATER_EQUAL nbt_minor AND PACKAGE_FIND_VERSION VERSION_LESS_EQUAL PACKAGE_VERSION)
    set(PACKAGE_VERSION_COMPATIBLE TRUE)
endif()
if(PACKAGE_FIND_VERSION VERSION_EQUAL PACKAGE_VERSION)
    set(PACKAGE_VERSION_EXACT TRUE)
endif()
unset(nbt_minor)
