# SPDX-License-Identifier: MIT OR Apache-2.0
# FindCizhmolat: the library that `./mps library DIR` puts into a folder, where this module stands beside it.
#
#     list(APPEND CMAKE_MODULE_PATH "DIR")
#     find_package(Cizhmolat REQUIRED)
#     target_link_libraries(mine PRIVATE Cizhmolat::cizhmolat)
#
# The library is looked for in Cizhmolat_ROOT, if that is set, in this module's folder, and where the system has others: the
# shared one first. Set Cizhmolat_LIBRARY to libcizhmolat.a for the static one.
find_path(Cizhmolat_INCLUDE_DIR cizhmolat.h HINTS "${CMAKE_CURRENT_LIST_DIR}")
find_library(Cizhmolat_LIBRARY cizhmolat HINTS "${CMAKE_CURRENT_LIST_DIR}")
mark_as_advanced(Cizhmolat_INCLUDE_DIR Cizhmolat_LIBRARY)

include(FindPackageHandleStandardArgs)
find_package_handle_standard_args(Cizhmolat REQUIRED_VARS Cizhmolat_LIBRARY Cizhmolat_INCLUDE_DIR)

if(Cizhmolat_FOUND AND NOT TARGET Cizhmolat::cizhmolat)
  add_library(Cizhmolat::cizhmolat UNKNOWN IMPORTED)
  set_target_properties(Cizhmolat::cizhmolat PROPERTIES
    IMPORTED_LOCATION "${Cizhmolat_LIBRARY}"
    INTERFACE_INCLUDE_DIRECTORIES "${Cizhmolat_INCLUDE_DIR}")
endif()
