/* What R calls by .Call: the text of a session to the text of its output.
 *
 *     R CMD SHLIB glue.c $(pkg-config --libs plantbal)
 */
#include <R.h>
#include <Rinternals.h>
#include <plantbal.h>

SEXP run(SEXP text) {
    plantbal_options options = PLANTBAL_OPTIONS;
    plantbal_session answer = PLANTBAL_SESSION;
    size_t length = 0;
    int status = plantbal_run(&options, CHAR(STRING_ELT(text, 0)), LENGTH(STRING_ELT(text, 0)), answer);
    if (status > PLANTBAL_DONE_REFUSED) error("plantbal: status %d", status);
    plantbal_session_output(answer, &length, 0, &length);
    char *buffer = R_alloc(length + 1, 1);
    plantbal_session_output(answer, buffer, length + 1, &length);
    plantbal_session_free(answer);
    SEXP line = PROTECT(mkCharLen(buffer, (int)length)), output = PROTECT(ScalarString(line));
    UNPROTECT(2);
    return output;
}
