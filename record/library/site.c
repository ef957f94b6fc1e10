/* Where a call stands: in a module (the program or a library), or in a line of a Python program. */
#include "record.h"
#include <dlfcn.h>
#include <elf.h>
#include <limits.h>
#include <stdio.h>
#include <stdlib.h>
#include <string.h>
#include <sys/auxv.h>
#include <unwind.h>

/* ---- Python ---- */

static struct {
    int (*is_running)(void);
    int (*ensure)(void);
    void (*release)(int);
    void (*forget)(void *);
    void *(*frame)(void);
    void *(*code)(void *);
    void *(*attribute)(void *, const char *);
    int (*line)(void *);
    void *(*back)(void *);              /* 0 before Python 3.9 */
    const char *(*text)(void *);
} python;

static void *python_function(const char *name, int *is_whole)
{
    void *found = dlsym(RTLD_DEFAULT, name);
    if (!found) *is_whole = 0;
    return found;
}

/* Whether Python runs is asked at each call: what is called at its end (Py_AtExit) finds none. */
static int has_python(void)
{
    static int is_known, has = 1;
    if (is_known) return has && python.is_running();
    is_known = 1;
    python.is_running = (int (*)(void))python_function("Py_IsInitialized", &has);
    python.ensure = (int (*)(void))python_function("PyGILState_Ensure", &has);
    python.release = (void (*)(int))python_function("PyGILState_Release", &has);
    python.forget = (void (*)(void *))python_function("Py_DecRef", &has);
    python.frame = (void *(*)(void))python_function("PyEval_GetFrame", &has);
    python.code = (void *(*)(void *))python_function("PyFrame_GetCode", &has);
    python.attribute = (void *(*)(void *, const char *))python_function("PyObject_GetAttrString", &has);
    python.line = (int (*)(void *))python_function("PyFrame_GetLineNumber", &has);
    python.text = (const char *(*)(void *))python_function("PyUnicode_AsUTF8", &has);
    python.back = (void *(*)(void *))dlsym(RTLD_DEFAULT, "PyFrame_GetBack");
    return has && python.is_running();
}

/* Whether a file is of a package that is installed, or of Python itself. */
static int is_installed(const char *path) { return strstr(path, "/site-packages/") || strstr(path, "/dist-packages/") || strstr(path, "/lib/python3"); }

/* FILE:LINE of a frame, and whether its file is installed. */
static int name_frame(void *frame, char *word, int room, int *installed)
{
    void *code = python.code(frame), *name = code ? python.attribute(code, "co_filename") : 0;
    const char *path = name ? python.text(name) : 0, *last = path ? strrchr(path, '/') : 0;
    if (path) {
        snprintf(word, room, "%.*s:%d", room - 16, last ? last + 1 : path, python.line(frame));
        for (char *at = word; *at; at++) if (*at <= ' ' || *at == '<') *at = '_';
        *installed = is_installed(path);
    }
    if (name) python.forget(name);
    if (code) python.forget(code);
    return path != 0;
}

/* The line that calls; of one in a package also the nearest of the program's own. */
static int name_python_line(char word[SITE_SIZE])
{
    enum { HALF = SITE_SIZE / 2 - 1, FRAMES = 64 };
    int state = python.ensure(), installed = 0, number = 0;
    void *frame = python.frame();
    int is_named = frame && name_frame(frame, word, HALF, &installed);
    void *at = is_named && installed && python.back ? python.back(frame) : 0;
    while (at && number++ < FRAMES) {
        char caller[HALF];
        int is_known = name_frame(at, caller, HALF, &installed);
        void *next = is_known && installed ? python.back(at) : 0;
        if (is_known && !installed) { strcat(word, "<"); strcat(word, caller); }
        python.forget(at);
        at = next;
    }
    if (at) python.forget(at);
    python.release(state);
    return is_named;
}

/* ---- modules ---- */

typedef struct { char *first, *end; } Range;

static int is_fortran_layer(const char *path)
{
    return strstr(path, "libmpichf") || strstr(path, "libmpi_mpifh") || strstr(path, "libmpi_usempi");
}

int is_in_fortran_layer(void *site)
{
    Dl_info module;
    return dladdr(site, &module) && module.dli_fname && is_fortran_layer(module.dli_fname);
}

/* Writes a line for each new module. */
static int number_of_module(const Dl_info *module)
{
    static char *bases[64];
    static int number;
    char path[PATH_MAX];
    const char *name = module->dli_fname;
    int i = 0;
    while (i < number && bases[i] != (char *)module->dli_fbase) i++;
    if (i < number || number == 64) return i;
    bases[number++] = module->dli_fbase;
    put_text("module"); put_number(i);
    put_word(realpath(strchr(name, '/') ? name : "/proc/self/exe", path) ? path : name);
    end_line();
    return i;
}

/* The program itself, without its libraries. */
static Range range_of_program(void)
{
    static Range found;
    const Elf64_Phdr *at = (const Elf64_Phdr *)getauxval(AT_PHDR);
    Dl_info module;
    if (found.end || !at || !dladdr((void *)getauxval(AT_ENTRY), &module)) return found;
    Range range = {module.dli_fbase, module.dli_fbase};
    int is_fixed = ((Elf64_Ehdr *)module.dli_fbase)->e_type == ET_EXEC;
    for (unsigned long i = 0; i < getauxval(AT_PHNUM); i++) {
        char *end = (char *)(at[i].p_vaddr + at[i].p_memsz) + (is_fixed ? 0 : (size_t)module.dli_fbase);
        if (at[i].p_type == PT_LOAD && end > range.end) range.end = end;
    }
    return found = range;
}

static int is_within(Range range, const void *at) { return (char *)at >= range.first && (char *)at < range.end; }

/* ---- places, each named once ---- */

enum { LAYER = 1, PROGRAM = 2, BINDING = 4, PLACES = 1024 };
typedef struct { void *site; int traits; char word[32]; } Place;

static void name_place(void *site, Place *place)
{
    Dl_info module;
    *place = (Place){.site = site, .word = "?"};
    if (!dladdr(site, &module) || !module.dli_fname) return;
    if (is_fortran_layer(module.dli_fname)) { place->traits = LAYER; return; }
    if (is_within(range_of_program(), site)) place->traits = PROGRAM | BINDING;
    if (strstr(module.dli_fname, ".cpython-") || strstr(module.dli_fname, ".abi3.")) place->traits |= BINDING;
    int number = number_of_module(&module);
    int is_fixed = ((Elf64_Ehdr *)module.dli_fbase)->e_type == ET_EXEC;
    if (number < 64) snprintf(place->word, sizeof place->word, "%d+0x%lx", number, (long)((char *)site - 1 - (is_fixed ? 0 : (char *)module.dli_fbase)));
}

static const Place *place_of(void *site)
{
    static Place places[PLACES];
    Place *place = &places[((uintptr_t)site >> 1) % PLACES];
    if (place->site != site) name_place(site, place);
    return place;
}

/* Who called: the first place that is in no Fortran layer of the MPI, and the first one in the program. */
typedef struct { void *site, *caller, *in_program; int is_past_site; } Callers;

static _Unwind_Reason_Code see_frame(struct _Unwind_Context *frame, void *of)
{
    Callers *callers = of;
    void *at = (void *)_Unwind_GetIP(frame);
    if (!callers->is_past_site && at != callers->site) return _URC_NO_REASON;
    callers->is_past_site = 1;
    if (!callers->caller && !(place_of(at)->traits & LAYER)) callers->caller = at;
    if (!callers->caller || !is_within(range_of_program(), at)) return _URC_NO_REASON;
    callers->in_program = at;
    return _URC_END_OF_STACK;
}

/* PLACE of the call, and of one in a library `PLACE<PLACE`, with the nearest one in the program: a line of Python, where that runs. */
void name_site(void *site, char word[SITE_SIZE])
{
    Callers callers = {.site = site};
    char line[SITE_SIZE];
    Place caller = *place_of(site);
    int has_line = has_python() && name_python_line(line);
    if (!(caller.traits & (PROGRAM | BINDING)) && (!has_line || caller.traits & LAYER)) _Unwind_Backtrace(see_frame, &callers);
    if (callers.caller) caller = *place_of(callers.caller);
    if (has_line && caller.traits & BINDING) snprintf(word, SITE_SIZE, "%s", line);
    else if (has_line) snprintf(word, SITE_SIZE, "%s<%.*s", caller.word, SITE_SIZE - 40, line);
    else if (!callers.in_program || caller.traits & PROGRAM) snprintf(word, SITE_SIZE, "%s", caller.word);
    else snprintf(word, SITE_SIZE, "%s<%s", caller.word, place_of(callers.in_program)->word);
}
