# find_package(lichenknit): the targets lichenknit::lichenknit, which is the shared library, and lichenknit::static.
get_filename_component(_lichenknit_prefix "${CMAKE_CURRENT_LIST_DIR}/../../.." ABSOLUTE)
foreach(_lichenknit_kind lichenknit static)
  if(NOT TARGET lichenknit::${_lichenknit_kind})
    if(_lichenknit_kind STREQUAL static)
      add_library(lichenknit::static STATIC IMPORTED)
      set(_lichenknit_file liblichenknit.a)
    else()
      add_library(lichenknit::lichenknit SHARED IMPORTED)
      set(_lichenknit_file liblichenknit.so)
    endif()
    set_target_properties(lichenknit::${_lichenknit_kind} PROPERTIES
      IMPORTED_LOCATION "${_lichenknit_prefix}/lib/${_lichenknit_file}"
      INTERFACE_INCLUDE_DIRECTORIES "${_lichenknit_prefix}/include")
  endif()
endforeach()
unset(_lichenknit_prefix)
unset(_lichenknit_file)
unset(_lichenknit_kind)
