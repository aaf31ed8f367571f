# find_package(povundiri 0.9) gives two targets, each for C and for C++:
#   povundiri::povundiri   the shared library
#   povundiri::static      the archive: it is linked into the program itself
get_filename_component(_povundiri_lib "${CMAKE_CURRENT_LIST_DIR}/../.." ABSOLUTE)
get_filename_component(_povundiri_root "${_povundiri_lib}/.." ABSOLUTE)
# This folder is PREFIX/lib/cmake/povundiri, or PREFIX/lib/ARCHITECTURE/cmake/povundiri.
if(NOT EXISTS "${_povundiri_root}/include/povundiri.h")
    get_filename_component(_povundiri_root "${_povundiri_root}/.." ABSOLUTE)
endif()
set(THREADS_PREFER_PTHREAD_FLAG ON)
include(CMakeFindDependencyMacro)
find_dependency(Threads)
# What throws is an archive of its own in both, since it alone needs the library of C++.
if(NOT TARGET povundiri::povundiri)
    add_library(povundiri::povundiri SHARED IMPORTED)
    set_target_properties(povundiri::povundiri PROPERTIES
        IMPORTED_LOCATION "${_povundiri_lib}/libpovundiri.so.1"
        IMPORTED_SONAME "libpovundiri.so.1"
        INTERFACE_INCLUDE_DIRECTORIES "${_povundiri_root}/include"
        INTERFACE_LINK_LIBRARIES "${_povundiri_lib}/libpovundiri_raise.a;Threads::Threads")
endif()
if(NOT TARGET povundiri::static)
    add_library(povundiri::static STATIC IMPORTED)
    set_target_properties(povundiri::static PROPERTIES
        IMPORTED_LOCATION "${_povundiri_lib}/libpovundiri.a"
        INTERFACE_INCLUDE_DIRECTORIES "${_povundiri_root}/include"
        INTERFACE_LINK_LIBRARIES "${_povundiri_lib}/libpovundiri_raise.a;${_povundiri_lib}/libpovundiri.a;Threads::Threads")
endif()
unset(_povundiri_root)
unset(_povundiri_lib)
