# Writes OUT, the source that says which version and commit a build is of. OUT is written anew only
# if that has changed, so that a build without a change compiles nothing.
#   cmake -DTOP=.. -DOUT=.. -DSESSION=.. [-DNAME=..] -P version.cmake
if(NOT NAME)
    set(NAME mireseason-gateway)
endif()
file(STRINGS ${TOP}/VERSION version LIMIT_COUNT 1)
if(EXISTS ${TOP}/COMMIT)
    # A tree without its history.
    file(STRINGS ${TOP}/COMMIT commit LIMIT_COUNT 1)
else()
    execute_process(COMMAND git -C ${TOP} describe --always --abbrev=12 --match=no-tag --dirty=+
        OUTPUT_VARIABLE commit OUTPUT_STRIP_TRAILING_WHITESPACE ERROR_QUIET)
endif()
if(NOT commit)
    set(commit unknown)
endif()
if(SESSION STREQUAL "proved")
    set(are_proved true)
    set(sessions "")
else()
    set(are_proved false)
    set(sessions ", sessions not proved: ${SESSION}")
endif()
set(text "#include \"common/version.h\"

namespace gateway {

std::string version_text() {
    return \"${NAME} ${version} (${commit})${sessions}\";
}

bool are_sessions_proved() {
    return ${are_proved};
}

} // namespace gateway
")
file(CONFIGURE OUTPUT ${OUT} CONTENT "${text}" @ONLY)
