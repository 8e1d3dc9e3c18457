# Logging with CMake: the library nanolog::nanolog, and a step that takes the log statements out of a program.
#
# A program that links nanolog::nanolog logs. The target stands for the headers, the archive, threads, and -rdynamic, so
# that plugins log by the program's session. A shared library or a plugin links nanolog::headers.
#
# nanolog_add_messages(TARGET.. [FILES FILE..]) takes the formats out of the program, too. The statements in the C++
# sources and headers of the TARGETs, and in the FILEs, go into one dictionary, TARGET.dict of the first TARGET, in its
# binary folder, or where RUNTIME_OUTPUT_DIRECTORY puts that. The property NANOLOG_DICTIONARY of each of them has its
# full name, and the macro NANOLOG_DICTIONARY that without folders. The TARGETs are compiled by way of
# `nanolog-compile`. A source with the property NANOLOG_SKIP is left as it is.
#
# NANOLOG_LIBRARY is the folder that `./nanolog --library FOLDER` has filled, and NANOLOG_PROGRAM the program `nanolog`.

find_program(NANOLOG_PROGRAM nanolog HINTS ${CMAKE_CURRENT_LIST_DIR} ${CMAKE_CURRENT_LIST_DIR}/..
    ${CMAKE_CURRENT_LIST_DIR}/../.. DOC "the program nanolog")
find_path(NANOLOG_LIBRARY libnanolog.a HINTS ${CMAKE_CURRENT_LIST_DIR} ${CMAKE_CURRENT_LIST_DIR}/../../library
    DOC "the folder that `./nanolog --library` has filled")
set(NANOLOG_STEP ${CMAKE_CURRENT_LIST_DIR} CACHE INTERNAL "the folder of nanolog-inject and nanolog-compile")

# ---- the library

# The headers aren't taken for those of the system, so that what the compiler warns of there is seen.
if(NANOLOG_LIBRARY AND NOT TARGET nanolog::nanolog)
    add_library(nanolog::headers INTERFACE IMPORTED GLOBAL)
    if(CMAKE_VERSION VERSION_LESS 3.23)
        set_property(TARGET nanolog::headers PROPERTY INTERFACE_COMPILE_OPTIONS -pthread -I${NANOLOG_LIBRARY})
    else()
        set_target_properties(nanolog::headers PROPERTIES INTERFACE_COMPILE_OPTIONS -pthread IMPORTED_NO_SYSTEM TRUE
            INTERFACE_INCLUDE_DIRECTORIES ${NANOLOG_LIBRARY})
    endif()
    set_property(TARGET nanolog::headers PROPERTY INTERFACE_LINK_LIBRARIES -pthread)
    add_library(nanolog::nanolog STATIC IMPORTED GLOBAL)
    set_target_properties(nanolog::nanolog PROPERTIES IMPORTED_LOCATION ${NANOLOG_LIBRARY}/libnanolog.a
        INTERFACE_LINK_LIBRARIES nanolog::headers INTERFACE_LINK_OPTIONS -rdynamic)
endif()

# ---- the step

function(nanolog_add_messages)
    cmake_parse_arguments(PARSE_ARGV 0 given "" "" "FILES")
    nanolog_targets(targets ${given_UNPARSED_ARGUMENTS})
    nanolog_were_added(were_added "${targets}" "${given_FILES}")
    if(were_added)
        return()
    endif()
    list(GET targets 0 first)
    get_target_property(folder ${first} SOURCE_DIR)
    get_target_property(binary ${first} BINARY_DIR)
    get_target_property(output ${first} RUNTIME_OUTPUT_DIRECTORY)
    get_target_property(type ${first} TYPE)
    if(NOT type STREQUAL "EXECUTABLE" OR NOT output OR output MATCHES "[$]<")
        set(output ${binary})
    endif()
    get_filename_component(dictionary ${output}/${first}.dict ABSOLUTE BASE_DIR ${binary})
    set(generated ${binary}/${first}_nanolog)
    set_property(GLOBAL PROPERTY NANOLOG_CALL_${first} "${targets} FILES ${given_FILES}")

    nanolog_files(paths "${targets}" "${given_FILES}")
    nanolog_step(${first}_nanolog "${paths}")
    foreach(target IN LISTS targets)
        nanolog_compile_injected(${target} ${first}_nanolog)
    endforeach()
endfunction()

# Sets `out` to the targets that the words name.
function(nanolog_targets out)
    if(NOT NANOLOG_PROGRAM OR NOT NANOLOG_LIBRARY)
        message(FATAL_ERROR "nanolog_add_messages: set NANOLOG_PROGRAM and NANOLOG_LIBRARY")
    endif()
    set(targets)
    foreach(word IN LISTS ARGN)
        if(NOT TARGET ${word})
            message(FATAL_ERROR "nanolog_add_messages: ${word} is no target; files stand behind the word FILES")
        endif()
        get_target_property(target ${word} ALIASED_TARGET)
        if(NOT target)
            set(target ${word})
        endif()
        get_target_property(is_imported ${target} IMPORTED)
        get_target_property(type ${target} TYPE)
        if(is_imported OR type STREQUAL "UTILITY")
            message(FATAL_ERROR "nanolog_add_messages: ${word} isn't compiled by this project")
        endif()
        if(NOT targets AND type STREQUAL "INTERFACE_LIBRARY")
            message(FATAL_ERROR "nanolog_add_messages: ${word} isn't compiled, and so doesn't name a dictionary; "
                "name the program first")
        endif()
        list(APPEND targets ${target})
    endforeach()
    if(NOT targets)
        message(FATAL_ERROR "nanolog_add_messages: name a target")
    endif()
    list(REMOVE_DUPLICATES targets)
    set(${out} ${targets} PARENT_SCOPE)
endfunction()

# Sets `out` where a call with these words was made before. Another one isn't taken, since a source that is compiled for
# two dictionaries would have the messages of one.
function(nanolog_were_added out targets files)
    list(GET targets 0 first)
    get_property(call GLOBAL PROPERTY NANOLOG_CALL_${first})
    if(call STREQUAL "${targets} FILES ${files}")
        set(${out} TRUE PARENT_SCOPE)
        return()
    endif()
    foreach(target IN LISTS targets)
        get_property(dictionary GLOBAL PROPERTY NANOLOG_DICTIONARY_${target})
        if(dictionary)
            message(FATAL_ERROR "nanolog_add_messages: the messages of ${target} go into ${dictionary} already; "
                "name all targets of a program, and all files, in one call")
        endif()
    endforeach()
    set(${out} FALSE PARENT_SCOPE)
endfunction()

# Sets `out` to the full names of all files whose statements are taken out.
function(nanolog_files out targets files)
    set(paths)
    foreach(target IN LISTS targets)
        nanolog_sources(sources ${target})
        get_target_property(type ${target} TYPE)
        set(folder ${CMAKE_CURRENT_SOURCE_DIR})
        set(binary ${CMAKE_CURRENT_BINARY_DIR})
        if(NOT type STREQUAL "INTERFACE_LIBRARY" OR NOT CMAKE_VERSION VERSION_LESS 3.19)
            get_target_property(folder ${target} SOURCE_DIR)
            get_target_property(binary ${target} BINARY_DIR)
        endif()
        foreach(source IN LISTS sources)
            nanolog_path(path "${source}" ${folder} ${binary})
            nanolog_is_taken(is_taken "${path}" ${target} ${binary})
            if(is_taken)
                list(APPEND paths "${path}")
            endif()
        endforeach()
    endforeach()
    foreach(file IN LISTS files)
        nanolog_path(path "${file}" ${CMAKE_CURRENT_SOURCE_DIR} ${CMAKE_CURRENT_BINARY_DIR})
        get_source_file_property(is_generated "${path}" GENERATED)
        if(NOT EXISTS "${path}" AND NOT is_generated)
            message(FATAL_ERROR "nanolog_add_messages: there is no ${file}")
        endif()
        list(APPEND paths "${path}")
    endforeach()
    list(REMOVE_DUPLICATES paths)
    set(${out} ${paths} PARENT_SCOPE)
endfunction()

# Sets `out` to what a target has, or gives to others, as sources.
function(nanolog_sources out target)
    get_target_property(type ${target} TYPE)
    set(properties INTERFACE_SOURCES)
    if(NOT type STREQUAL "INTERFACE_LIBRARY" OR NOT CMAKE_VERSION VERSION_LESS 3.19)
        list(APPEND properties SOURCES)
    endif()
    if(NOT CMAKE_VERSION VERSION_LESS 3.23)
        foreach(kind IN ITEMS HEADER_SETS INTERFACE_HEADER_SETS)
            get_target_property(sets ${target} ${kind})
            foreach(name IN LISTS sets)
                list(APPEND properties HEADER_SET_${name})
            endforeach()
        endforeach()
    endif()
    set(sources)
    foreach(property IN LISTS properties)
        get_target_property(value ${target} ${property})
        if(value)
            list(APPEND sources ${value})
        endif()
    endforeach()
    set(${out} ${sources} PARENT_SCOPE)
endfunction()

# Sets `out` to the full name of a source. One that isn't there is made, in the binary folder if it isn't said where.
function(nanolog_path out source folder binary)
    get_filename_component(path "${source}" ABSOLUTE BASE_DIR ${folder})
    if(NOT EXISTS "${path}")
        get_source_file_property(is_generated "${path}" GENERATED)
        if(NOT is_generated)
            get_filename_component(path "${source}" ABSOLUTE BASE_DIR ${binary})
        endif()
    endif()
    set(${out} "${path}" PARENT_SCOPE)
endfunction()

# Sets `out` where a source is one of C++, and may be taken out. Left as they are: sources that another folder's
# commands make, since nothing here can wait for them; those whose names are known only behind the configuration; and
# headers that lead on to the next one of their name.
function(nanolog_is_taken out path target binary)
    set(${out} FALSE PARENT_SCOPE)
    set(where)
    get_target_property(type ${target} TYPE)
    if(NOT CMAKE_VERSION VERSION_LESS 3.18 AND NOT type STREQUAL "INTERFACE_LIBRARY")
        set(where TARGET_DIRECTORY ${target})
    endif()
    get_source_file_property(language "${path}" ${where} LANGUAGE)
    get_source_file_property(is_skipped "${path}" ${where} NANOLOG_SKIP)
    get_source_file_property(is_generated "${path}" ${where} GENERATED)
    if(path MATCHES "[$]<" OR is_skipped)
        return()
    endif()
    if(NOT path MATCHES "[.](cc|cpp|cxx|c[+][+]|C|CPP|cp|h|hh|hpp|hxx|h[+][+]|H|inc|inl|ipp|tpp|tcc|txx|def)$" AND
        NOT (path MATCHES "[.]c$" AND language STREQUAL "CXX"))
        return()
    endif()
    string(FIND "${path}" "${binary}/" at)
    if(NOT binary STREQUAL CMAKE_CURRENT_BINARY_DIR AND (is_generated OR at EQUAL 0 OR NOT EXISTS "${path}"))
        message(STATUS "nanolog_add_messages: ${path} is left as it is, since another folder makes it")
        return()
    endif()
    if(EXISTS "${path}")
        file(STRINGS "${path}" leads_on REGEX "include_next" LIMIT_COUNT 1)
        if(leads_on)
            return()
        endif()
    endif()
    set(${out} TRUE PARENT_SCOPE)
endfunction()

# Adds the step, as a target of this name, and reads the variables of nanolog_add_messages. It runs where a file has
# changed, and writes what is another.
function(nanolog_step step paths)
    set(names)
    set(sources)
    set(headers)
    set(made)
    foreach(path IN LISTS paths)
        file(RELATIVE_PATH name ${folder} "${path}")
        list(APPEND names "${name}")
        if(path MATCHES "[.](cc|cpp|cxx|c[+][+]|C|CPP|cp|c)$")
            list(APPEND sources "${path}")
            list(APPEND made "${generated}/sources${path}")
        else()
            list(APPEND headers "${generated}/headers${path}")
        endif()
    endforeach()
    string(REPLACE ";" "\n" lines "${names}")
    file(GENERATE OUTPUT ${generated}/files CONTENT "${lines}\n")
    add_custom_command(OUTPUT ${generated}/done
        BYPRODUCTS ${dictionary} ${generated}/nanolog_messages.h ${made} ${headers}
        COMMAND ${CMAKE_COMMAND} -E env "NANOLOG=${NANOLOG_PROGRAM}" "PWD=${folder}"
            sh ${NANOLOG_STEP}/nanolog-inject -t -f ${generated}/files ${dictionary} ${generated}
        COMMAND ${CMAKE_COMMAND} -E touch ${generated}/done
        DEPENDS ${paths} ${generated}/files ${NANOLOG_PROGRAM} ${NANOLOG_STEP}/nanolog-inject
        WORKING_DIRECTORY ${folder} COMMENT "Taking out the log statements for ${first}.dict" VERBATIM)
    add_custom_target(${step} DEPENDS ${generated}/done)
    set_property(TARGET ${step} PROPERTY FOLDER nanolog)
    set(nanolog_sources ${sources} PARENT_SCOPE)
    set(nanolog_headers ${headers} PARENT_SCOPE)
endfunction()

# Sets `out` where CMake knows by which files of the step the sources of a target are compiled. Before 3.21 it has to be
# told, which it can be in the target's own folder, and from 3.18 on in others.
function(nanolog_is_followed out target)
    set(${out} TRUE PARENT_SCOPE)
    if(NOT CMAKE_VERSION VERSION_LESS 3.21)
        return()
    endif()
    set(where)
    get_target_property(own ${target} SOURCE_DIR)
    if(NOT own STREQUAL CMAKE_CURRENT_SOURCE_DIR)
        if(CMAKE_VERSION VERSION_LESS 3.18)
            message(STATUS "nanolog_add_messages: ${target} is left as it is, since CMake is older than 3.18; "
                "call it in the folder of ${target}")
            set(${out} FALSE PARENT_SCOPE)
            return()
        endif()
        set(where TARGET_DIRECTORY ${target})
    endif()
    foreach(path IN LISTS nanolog_sources)
        set_property(SOURCE "${path}" ${where} APPEND PROPERTY OBJECT_DEPENDS "${generated}/sources${path}"
            ${generated}/nanolog_messages.h ${nanolog_headers})
    endforeach()
endfunction()

# Has a target compiled behind the step.
function(nanolog_compile_injected target step)
    set_property(GLOBAL PROPERTY NANOLOG_DICTIONARY_${target} ${dictionary})
    get_target_property(type ${target} TYPE)
    if(type STREQUAL "INTERFACE_LIBRARY")
        return()
    endif()
    set_property(TARGET ${target} PROPERTY NANOLOG_DICTIONARY ${dictionary})
    set_property(TARGET ${target} APPEND PROPERTY COMPILE_DEFINITIONS NANOLOG_DICTIONARY="${first}.dict")
    nanolog_link(${target})
    nanolog_is_followed(is_followed ${target})
    if(NOT is_followed)
        return()
    endif()
    add_dependencies(${target} ${step})
    get_target_property(launcher ${target} CXX_COMPILER_LAUNCHER)
    if(NOT launcher)
        set(launcher)
    endif()
    set_property(TARGET ${target} PROPERTY CXX_COMPILER_LAUNCHER sh ${NANOLOG_STEP}/nanolog-compile ${generated}
        ${launcher})
endfunction()

# Links a target. Properties go along with either way in which the project calls target_link_libraries.
function(nanolog_link target)
    get_target_property(type ${target} TYPE)
    if(type MATCHES "^(SHARED|MODULE)_LIBRARY$")
        set_property(TARGET ${target} APPEND PROPERTY LINK_LIBRARIES nanolog::headers)
    else()
        set_property(TARGET ${target} APPEND PROPERTY LINK_LIBRARIES nanolog::nanolog)
    endif()
    if(type MATCHES "^(STATIC|OBJECT)_LIBRARY$")
        set_property(TARGET ${target} APPEND PROPERTY INTERFACE_LINK_LIBRARIES $<LINK_ONLY:nanolog::nanolog>)
    endif()
endfunction()
