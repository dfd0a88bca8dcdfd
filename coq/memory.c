/* Where memory runs out at its start or in a minor collection OCaml's runtime aborts a program:
   here it ends with status 4. */
#define CAML_INTERNALS
#include <caml/misc.h>
#include <stdarg.h>
#include <unistd.h>

static void out_of_memory(char *message, va_list arguments) {
    static const char line[] = "ordercheck-coq: OutOfMemory\n";
    (void)message, (void)arguments;
    if (write(2, line, sizeof line - 1) < 0)
        _exit(4);
    _exit(4);
}

__attribute__((constructor)) static void before_the_runtime(void) { caml_fatal_error_hook = out_of_memory; }
