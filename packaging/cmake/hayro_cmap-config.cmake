# The C library hayro_cmap, as find_package(hayro_cmap) finds it: hayro_cmap::shared and hayro_cmap::static.

# The targets are the components. Without another one that is required the package isn't found.
set(hayro_cmap_shared_FOUND TRUE)
set(hayro_cmap_static_FOUND TRUE)
foreach(_hayro_cmap_component IN LISTS hayro_cmap_FIND_COMPONENTS)
  if(hayro_cmap_FIND_REQUIRED_${_hayro_cmap_component} AND NOT hayro_cmap_${_hayro_cmap_component}_FOUND)
    set(hayro_cmap_FOUND FALSE)
    set(hayro_cmap_NOT_FOUND_MESSAGE "hayro_cmap has no component ${_hayro_cmap_component}")
    return()
  endif()
endforeach()
unset(_hayro_cmap_component)

# `proved`, or `plain` for the library of plain Rust
set(hayro_cmap_BUILD "@BUILD@")

if(TARGET hayro_cmap::shared)
  return()
endif()

get_filename_component(_hayro_cmap_here "${CMAKE_CURRENT_LIST_DIR}" REALPATH)
get_filename_component(_hayro_cmap_libdir "${_hayro_cmap_here}/../.." ABSOLUTE)
get_filename_component(_hayro_cmap_prefix "${_hayro_cmap_here}/@PREFIX@" ABSOLUTE)

add_library(hayro_cmap::shared SHARED IMPORTED)
set_target_properties(hayro_cmap::shared PROPERTIES
  IMPORTED_LOCATION "${_hayro_cmap_libdir}/libhayro_cmap.so.@VERSION@"
  IMPORTED_SONAME "@SONAME@"
  INTERFACE_INCLUDE_DIRECTORIES "${_hayro_cmap_prefix}/include")

add_library(hayro_cmap::static STATIC IMPORTED)
set_target_properties(hayro_cmap::static PROPERTIES
  IMPORTED_LOCATION "${_hayro_cmap_libdir}/libhayro_cmap.a"
  INTERFACE_INCLUDE_DIRECTORIES "${_hayro_cmap_prefix}/include")

unset(_hayro_cmap_here)
unset(_hayro_cmap_libdir)
unset(_hayro_cmap_prefix)
