# find_package(ampferweg) gives the targets ampferweg::ampferweg (the link), ampferweg::tags (with the link) and ampferweg::parity.
get_filename_component(_ampferweg "${CMAKE_CURRENT_LIST_DIR}/../../.." ABSOLUTE)
foreach(_part ampferweg tags parity)
    if(NOT TARGET ampferweg::${_part})
        string(REPLACE "_ampferweg" "" _file "ampferweg_${_part}")
        add_library(ampferweg::${_part} STATIC IMPORTED)
        set_target_properties(ampferweg::${_part} PROPERTIES
            IMPORTED_LOCATION "${_ampferweg}/lib/lib${_file}.a"
            INTERFACE_INCLUDE_DIRECTORIES "${_ampferweg}/include")
    endif()
endforeach()
set_property(TARGET ampferweg::tags PROPERTY INTERFACE_LINK_LIBRARIES ampferweg::ampferweg)
