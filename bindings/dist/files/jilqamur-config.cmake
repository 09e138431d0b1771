# The targets jilqamur::jilqamur (static) and jilqamur::shared.
get_filename_component(_jilqamur "${CMAKE_CURRENT_LIST_DIR}/../../.." ABSOLUTE)
if(NOT TARGET jilqamur::jilqamur)
  add_library(jilqamur::jilqamur STATIC IMPORTED)
  set_target_properties(jilqamur::jilqamur PROPERTIES
    IMPORTED_LOCATION "${_jilqamur}/lib/libjilqamur.a"
    INTERFACE_INCLUDE_DIRECTORIES "${_jilqamur}/include")
  add_library(jilqamur::shared SHARED IMPORTED)
  set_target_properties(jilqamur::shared PROPERTIES
    IMPORTED_LOCATION "${_jilqamur}/lib/libjilqamur.so.0"
    IMPORTED_SONAME "libjilqamur.so.0"
    INTERFACE_INCLUDE_DIRECTORIES "${_jilqamur}/include")
endif()
unset(_jilqamur)
