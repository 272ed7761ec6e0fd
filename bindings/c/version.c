/* What the library says of itself. It is compiled beside the proved archive, and is not proved itself: about.c tests it.
 *
 * bindings/build.sh passes PUNDEWO_BUILD, a text, and PUNDEWO_VERSION_NUMBER, which the header has by the same name. It
 * includes no header, since the toolchain's compiler has none.
 */
extern const char pundewo_build[];
const char pundewo_build[] = PUNDEWO_BUILD;

unsigned pt_version(void);
unsigned pt_version(void) {
    return PUNDEWO_VERSION_NUMBER;
}

const char *pt_code_name(unsigned code);
const char *pt_code_name(unsigned code) {
    static const char *const names[] = {"ok", "Full", "Memory", "Worn", "Gone", "Myself", "NoProc", "unknown",
        "nothing", "empty", "filled", "bad desks", "bad slots", "bad top version", "bad lane", "bad start",
        "bad code", "not running", "wrong desk", "bad name", "taken", "has name", "bad places",
        "child running", "child restarting", "child present", "unlisted"};
    return code < sizeof names / sizeof *names ? names[code] : "?";
}
