# The targets zarrs_chunks::shared and zarrs_chunks::static.
get_filename_component(zarrs_chunks_folder "${CMAKE_CURRENT_LIST_DIR}/../../.." ABSOLUTE)

if(NOT TARGET zarrs_chunks::shared)
  add_library(zarrs_chunks::shared SHARED IMPORTED)
  set_target_properties(zarrs_chunks::shared PROPERTIES
    IMPORTED_LOCATION "${zarrs_chunks_folder}/lib/libzarrs_chunks.so.@INTERFACE@"
    IMPORTED_SONAME "libzarrs_chunks.so.@INTERFACE@"
    INTERFACE_INCLUDE_DIRECTORIES "${zarrs_chunks_folder}/include")

  add_library(zarrs_chunks::static STATIC IMPORTED)
  set_target_properties(zarrs_chunks::static PROPERTIES
    IMPORTED_LOCATION "${zarrs_chunks_folder}/lib/libzarrs_chunks.a"
    INTERFACE_INCLUDE_DIRECTORIES "${zarrs_chunks_folder}/include")
endif()
