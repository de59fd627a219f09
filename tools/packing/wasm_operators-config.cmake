# Defines the target wasm_operators::wasm_operators, the decoder for C. It is for Linux on x86-64-v2.
if(NOT CMAKE_SYSTEM_NAME STREQUAL "Linux" OR NOT CMAKE_SYSTEM_PROCESSOR MATCHES "^(x86_64|AMD64|amd64)$")
  set(wasm_operators_FOUND FALSE)
  set(wasm_operators_NOT_FOUND_MESSAGE "its library is for Linux on x86-64")
  return()
endif()
if(NOT TARGET wasm_operators::wasm_operators)
  get_filename_component(_wasm_operators_prefix "${CMAKE_CURRENT_LIST_DIR}/../../.." ABSOLUTE)
  add_library(wasm_operators::wasm_operators STATIC IMPORTED)
  set_target_properties(wasm_operators::wasm_operators PROPERTIES
    IMPORTED_LOCATION "${_wasm_operators_prefix}/lib/libwasm_c.a"
    INTERFACE_INCLUDE_DIRECTORIES "${_wasm_operators_prefix}/include"
    INTERFACE_LINK_LIBRARIES "${_wasm_operators_prefix}/lib/liblibc_c.a")
  unset(_wasm_operators_prefix)
endif()
