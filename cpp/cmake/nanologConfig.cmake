# find_package(nanolog) reads this from the folder that `./nanolog --library FOLDER` has filled.
if(EXISTS ${CMAKE_CURRENT_LIST_DIR}/libnanolog.a)
    set(NANOLOG_LIBRARY ${CMAKE_CURRENT_LIST_DIR} CACHE PATH "the folder that `./nanolog --library` has filled" FORCE)
endif()
include(${CMAKE_CURRENT_LIST_DIR}/nanolog.cmake)
if(NOT TARGET nanolog::nanolog)
    set(nanolog_FOUND FALSE)
    set(nanolog_NOT_FOUND_MESSAGE "NANOLOG_LIBRARY isn't the folder that `./nanolog --library` has filled")
endif()
