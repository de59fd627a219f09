# The version is the release. Releases 0.Y.Z with the same Y are compatible, if they are not older.
set(PACKAGE_VERSION "{version}")
string(REGEX MATCH "^[0-9]+\\.[0-9]+" _wasm_operators_minor "${PACKAGE_VERSION}")
if(PACKAGE_VERSION VERSION_EQUAL PACKAGE_FIND_VERSION)
  set(PACKAGE_VERSION_COMPATIBLE TRUE)
  set(PACKAGE_VERSION_EXACT TRUE)
elseif("${PACKAGE_FIND_VERSION_MAJOR}.${PACKAGE_FIND_VERSION_MINOR}" STREQUAL _wasm_operators_minor
       AND PACKAGE_VERSION VERSION_GREATER PACKAGE_FIND_VERSION)
  set(PACKAGE_VERSION_COMPATIBLE TRUE)
endif()
unset(_wasm_operators_minor)
