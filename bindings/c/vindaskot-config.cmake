# find_package(vindaskot) where tools/install has put the archive and its header: the target vindaskot::vindaskot.
get_filename_component(vindaskot_prefix "${CMAKE_CURRENT_LIST_DIR}/../../.." ABSOLUTE)
if(NOT TARGET vindaskot::vindaskot)
  add_library(vindaskot::vindaskot STATIC IMPORTED)
  set_target_properties(vindaskot::vindaskot PROPERTIES
    IMPORTED_LOCATION "${vindaskot_prefix}/lib/libvindaskot.a"
    INTERFACE_INCLUDE_DIRECTORIES "${vindaskot_prefix}/include")
endif()
unset(vindaskot_prefix)
