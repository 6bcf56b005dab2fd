# confstamp.cmake: the synchronisation in a build by CMake with confstamp-cc. It is included after `project`,
# and before the targets.
#
#     set(confstamp_kconfig FILE)      the Kconfig (Kconfig of the sources)
#     set(confstamp_dotconfig FILE)    the configuration (.config of the sources)
#     include(.../lib/confstamp/ninja/confstamp.cmake)
#
# It synchronises when cmake configures. At the beginning of each build the texts of both files are compared with what was
# synchronised, whatever their times: ninja runs cmake again where they differ, and under make each target waits for it.
# A part of the project that includes it too, as by FetchContent, goes by the same files.

include_guard(GLOBAL)
if(NOT confstamp_kconfig)
  set(confstamp_kconfig ${CMAKE_SOURCE_DIR}/Kconfig)
endif()
if(NOT confstamp_dotconfig)
  set(confstamp_dotconfig ${CMAKE_SOURCE_DIR}/.config)
endif()
set_property(DIRECTORY APPEND PROPERTY CMAKE_CONFIGURE_DEPENDS ${confstamp_kconfig} ${confstamp_dotconfig})
execute_process(COMMAND confstamp-sync -C ${CMAKE_BINARY_DIR} ${confstamp_kconfig} ${confstamp_dotconfig} COMMAND_ERROR_IS_FATAL ANY)
foreach(confstamp_language C CXX OBJC OBJCXX)
  set(CMAKE_${confstamp_language}_COMPILER_LAUNCHER confstamp-cc ${CMAKE_${confstamp_language}_COMPILER_LAUNCHER})
endforeach()

set(confstamp_done ${CMAKE_BINARY_DIR}/include/config/synchronised)
add_custom_target(confstamp-synchronise BYPRODUCTS ${confstamp_done} COMMENT SYNC
  COMMAND confstamp-sync -C ${CMAKE_BINARY_DIR} --if-changed ${confstamp_kconfig} ${confstamp_dotconfig})
if(CMAKE_GENERATOR MATCHES Ninja)
  set_property(DIRECTORY APPEND PROPERTY CMAKE_CONFIGURE_DEPENDS ${confstamp_done})
else()
  function(confstamp_wait directory)
    get_property(targets DIRECTORY ${directory} PROPERTY BUILDSYSTEM_TARGETS)
    list(REMOVE_ITEM targets confstamp-synchronise)
    foreach(each ${targets})
      add_dependencies(${each} confstamp-synchronise)
    endforeach()
    get_property(below DIRECTORY ${directory} PROPERTY SUBDIRECTORIES)
    foreach(each ${below})
      confstamp_wait(${each})
    endforeach()
  endfunction()
  cmake_language(DEFER DIRECTORY ${CMAKE_SOURCE_DIR} CALL confstamp_wait ${CMAKE_SOURCE_DIR})
endif()
