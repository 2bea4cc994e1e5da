# find_package(snoekeldraf) defines the target snoekeldraf::snoekeldraf: the header and the proved library.
#
# SNOEKELDRAF_TARGET, if set before the call, names the library (a folder of lib/snoekeldraf/): cortex-m4, riscv32, x86-64-v3
# and so on. If it is not set, Linux on x86-64 and on AArch64 and WebAssembly are recognised by CMAKE_SYSTEM_PROCESSOR.
get_filename_component(_snoekeldraf_lib "${CMAKE_CURRENT_LIST_DIR}/../.." ABSOLUTE)
get_filename_component(_snoekeldraf_root "${_snoekeldraf_lib}/.." ABSOLUTE)

set(_snoekeldraf_name "${SNOEKELDRAF_TARGET}")
if(NOT _snoekeldraf_name)
  if(CMAKE_SYSTEM_NAME STREQUAL "Linux" AND CMAKE_SYSTEM_PROCESSOR MATCHES "^(x86_64|AMD64|amd64)$")
    set(_snoekeldraf_name x86-64)
  elseif(CMAKE_SYSTEM_NAME STREQUAL "Linux" AND CMAKE_SYSTEM_PROCESSOR MATCHES "^(aarch64|arm64)$")
    set(_snoekeldraf_name aarch64)
  elseif(CMAKE_SYSTEM_PROCESSOR STREQUAL "wasm32")
    set(_snoekeldraf_name wasm32)
  endif()
endif()

set(_snoekeldraf_archive "${_snoekeldraf_lib}/snoekeldraf/${_snoekeldraf_name}/libsnoekeldraf.a")
if(NOT _snoekeldraf_name OR NOT EXISTS "${_snoekeldraf_archive}")
  file(GLOB _snoekeldraf_names RELATIVE "${_snoekeldraf_lib}/snoekeldraf" "${_snoekeldraf_lib}/snoekeldraf/*/libsnoekeldraf.a")
  string(REPLACE "/libsnoekeldraf.a" "" _snoekeldraf_names "${_snoekeldraf_names}")
  string(REPLACE ";" ", " _snoekeldraf_names "${_snoekeldraf_names}")
  set(snoekeldraf_FOUND FALSE)
  set(snoekeldraf_NOT_FOUND_MESSAGE
    "no library '${_snoekeldraf_name}' (${CMAKE_SYSTEM_NAME} on ${CMAKE_SYSTEM_PROCESSOR}); set SNOEKELDRAF_TARGET to one of: ${_snoekeldraf_names}")
  return()
endif()

if(NOT TARGET snoekeldraf::snoekeldraf)
  add_library(snoekeldraf::snoekeldraf STATIC IMPORTED)
  set_target_properties(snoekeldraf::snoekeldraf PROPERTIES
    IMPORTED_LOCATION "${_snoekeldraf_archive}"
    IMPORTED_LINK_INTERFACE_LANGUAGES C
    INTERFACE_INCLUDE_DIRECTORIES "${_snoekeldraf_root}/include")
endif()
