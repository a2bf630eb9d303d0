"""mixegorta.dll for x86-64 Windows: the proved module, compiled by the kit's compiler, with C functions around its own.

Windows' C hands arguments over in other registers than the module, whose functions keep the System V convention:
`x86_64_sysvcc` in the module's text, `sysv_abi` in the C functions around them (tools/wrapping.py), which MinGW's gcc
compiles and links. The DLL does nothing when it is loaded, imports memcpy, memmove and memset of msvcrt.dll alone,
which every Windows has, and names no path or time of the build. A frame of a page or more touches its pages in order,
as Windows asks for, by ___chkstk_ms of libgcc."""
import compiling
import exports
import wrapping

COMPILER = compiling.COMPILERS['windows-x86_64']
TRIPLE = 'x86_64-pc-windows-gnu'
DLL, IMPORTS, DEFINITIONS = 'mixegorta.dll', 'libmixegorta.dll.a', 'mixegorta.def'
# What Windows calls when the DLL is loaded: there is nothing to do.
START = '''
int __stdcall DllMainCRTStartup(void *instance, unsigned long reason, void *reserved);
int __stdcall DllMainCRTStartup(void *instance, unsigned long reason, void *reserved) {
    (void)instance, (void)reason, (void)reserved;
    return 1;
}
'''
# A fixed base, since the linker's own depends on the folder of the build; Windows moves the DLL wherever it likes.
LINKED = ('-shared', '-nostdlib', '-s', '-Wl,--no-insert-timestamp', '-Wl,--image-base,0x180000000',
          '-Wl,--dynamicbase', '-Wl,--nxcompat', '-Wl,--high-entropy-va')


def definitions():
    """The exports by name, as a linker reads them; Visual Studio's `lib /def:` makes its own import library from it."""
    return f'LIBRARY {DLL}\nEXPORTS\n' + ''.join(f'    {name}\n' for name in compiling.names())


def built(text, folder):
    """The DLL, its import library and its list of exports."""
    functions, records = exports.exported()
    text = wrapping.module_text(compiling.plain(text), functions, records, 'x86_64_sysvcc')
    module = compiling.compiled(text, TRIPLE, folder / 'module.o', '-march=x86-64')
    source, around = folder / 'functions.c', folder / 'functions.o'
    source.write_text(wrapping.c_text(functions, records, '__attribute__((sysv_abi)) ') + START, encoding='utf-8')
    (folder / DEFINITIONS).write_text(definitions(), encoding='utf-8')
    compiling.ran(COMPILER, *compiling.C_FLAGS, '-c', source, '-o', around)
    compiling.ran(COMPILER, *LINKED, module, around, folder / DEFINITIONS, f'-Wl,--out-implib,{folder / IMPORTS}',
                  '-lgcc', '-lmsvcrt', '-o', folder / DLL)
    for path in (source, around, module):
        path.unlink()
    return [folder / name for name in (DLL, IMPORTS, DEFINITIONS)]
