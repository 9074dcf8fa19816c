/* A C `main` for the programs, with an exit status, where the programs themselves always end with 0: 0, or 1 where a read or a write failed; of
 * a text with a fault and of a sheet without a text, too. MAIN is nuqsillay_sheet_main (libsheet_print.a), nuqsillay_strides_main
 * (libstride_print.a), nuqsillay_typed_main or nuqsillay_type_sheet_main (libtyped_print.a) or nuqsillay_sheet_text_main
 * (libtext_print.a).
 *   tools/staticlib sheet_print && gcc -O2 -DMAIN=nuqsillay_sheet_main examples/main.c target/staticlib/libsheet_print.a -lm -o target/sheet_main
 *   target/sheet_main < examples/sample.sheet */
#include <stdint.h>

int32_t MAIN(void);

int main(void) { return MAIN(); }
