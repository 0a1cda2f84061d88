# find_package(mekurdai) gives the target mekurdai::mekurdai. The program that links it brings the three functions for
# memory of spdm.h.
get_filename_component(mekurdai_prefix "${CMAKE_CURRENT_LIST_DIR}/../../.." ABSOLUTE)
if(NOT TARGET mekurdai::mekurdai)
  add_library(mekurdai::mekurdai STATIC IMPORTED)
  set_target_properties(
    mekurdai::mekurdai
    PROPERTIES IMPORTED_LOCATION "${mekurdai_prefix}/lib/libmekurdai.a"
               INTERFACE_INCLUDE_DIRECTORIES "${mekurdai_prefix}/include")
endif()
