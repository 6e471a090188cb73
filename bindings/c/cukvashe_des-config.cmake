# find_package(cukvashe_des): cukvashe_des::cukvashe_des is the shared library, cukvashe_des::cukvashe_des_static the static one.
get_filename_component(_cukvashe_des_libdir "${CMAKE_CURRENT_LIST_DIR}/../.." ABSOLUTE)
get_filename_component(_cukvashe_des_prefix "${_cukvashe_des_libdir}/.." ABSOLUTE)
if(NOT TARGET cukvashe_des::cukvashe_des)
  add_library(cukvashe_des::cukvashe_des SHARED IMPORTED)
  set_target_properties(cukvashe_des::cukvashe_des PROPERTIES
    IMPORTED_LOCATION "${_cukvashe_des_libdir}/libcukvashe_des.so.@SOVERSION@"
    IMPORTED_SONAME libcukvashe_des.so.@SOVERSION@
    INTERFACE_INCLUDE_DIRECTORIES "${_cukvashe_des_prefix}/include")
  add_library(cukvashe_des::cukvashe_des_static STATIC IMPORTED)
  set_target_properties(cukvashe_des::cukvashe_des_static PROPERTIES
    IMPORTED_LOCATION "${_cukvashe_des_libdir}/libcukvashe_des.a"
    INTERFACE_INCLUDE_DIRECTORIES "${_cukvashe_des_prefix}/include")
endif()
unset(_cukvashe_des_libdir)
unset(_cukvashe_des_prefix)
