# Below 1.0 another minor version may change the interface, so a project that names a version gets that version or none.
set(PACKAGE_VERSION @version@)
if(PACKAGE_FIND_VERSION VERSION_EQUAL PACKAGE_VERSION)
    set(PACKAGE_VERSION_COMPATIBLE TRUE)
    set(PACKAGE_VERSION_EXACT TRUE)
endif()
