# Prints the functions of the project that a run passes, in order: gdb -q -batch -x tools/trace.gdb PROGRAM
# The run is `PROGRAM script in /dev/null` in the working directory. Functions that the compiler inlined have no symbol, and don't show.
set pagination off
python
import re

# A loop of a long script stops here.
MOST = 20000
# "0x000000000001b2c0  dsp_console::lines::pass": a symbol without a line number, of a crate of the project or of the kit.
SYMBOL = re.compile(r"^(0x[0-9a-f]+)\s+(.*)$", re.M)
CRATE = re.compile(
    r"<?(?:dsp_program|port_files|dsp_console|script_server|octet_ports|voice_script|voice_channel|alg_\w+|host_\w+|lifecycle|scratch_group"
    r"|record_loans|ialg|voice_set|kind_parts|gateway_kinds|space_heap|space_raw|relocate|fir_kernel|mem_rec|basic_op)::"
)


def plain(name):
    """A name without its type arguments and the compiler's hash."""
    name, before = re.sub(r"::h[0-9a-f]{16}$", "", name), ""
    while name != before:
        before, name = name, re.sub(r"<[^<>]*>", "", name)
    return name.replace("::::", "::").removesuffix("::")


# The program is at its address in memory once it has begun.
gdb.execute("starti script in /dev/null > /dev/null", to_string=True)
names = {}
for address, name in SYMBOL.findall(gdb.execute("info functions -q", to_string=True)):
    if CRATE.match(name):
        names[int(address, 16)] = plain(name)
        gdb.Breakpoint("*" + address, internal=True).silent = True
for _ in range(MOST):
    try:
        gdb.execute("continue", to_string=True)
        print("passes " + names[int(gdb.selected_frame().pc())])
    except (gdb.error, KeyError):
        break
end
