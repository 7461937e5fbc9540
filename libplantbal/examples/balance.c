// Closes one day of a small plant and prints its report.
//
//     cc balance.c $(pkg-config --cflags --libs plantbal) && ./a.out
#include <plantbal.h>
#include <stdio.h>
#include <stdlib.h>
#include <string.h>

static const char day[] =
    "unit,CDU\n"
    "stream,CRUDE,env,CDU,metered,1000000000000\n"
    "stream,NAPHTHA,CDU,env,metered,10000000000\n"
    "stream,RESIDUE,CDU,env,metered,250000000000\n"
    "period,monday,2024-05-06,2024-05-06\n"
    "reading,crude-06,CRUDE,2024-05-06,9931400000,900000000000000\n"
    "reading,naphtha-06,NAPHTHA,2024-05-06,3113600000,31360000000000\n"
    "reading,residue-06,RESIDUE,2024-05-06,6741000000,187690000000000\n"
    "reading,residue-07,RESIDUE,2024-05-06,6741000000,187690000000000\n"
    "report,monday\n";

int main(void) {
    plantbal_options options = PLANTBAL_OPTIONS;
    plantbal_session session = PLANTBAL_SESSION;
    if (plantbal_session_new(&options, session) != PLANTBAL_DONE) return 1;

    unsigned char codes[16];
    size_t taken, length;
    plantbal_session_rows(session, day, strlen(day), 0, codes, sizeof codes, &taken);
    for (size_t i = 0; i < taken; i++)
        if (codes[i] != PLANTBAL_ACCEPTED) printf("record %zu is refused for cause %d\n", i + 1, codes[i]);

    plantbal_session_output(session, &length, 0, &length); // asks for the length
    char *report = malloc(length);
    if (plantbal_session_output(session, report, length, &length) == PLANTBAL_DONE) fwrite(report, 1, length, stdout);
    free(report);
    plantbal_session_free(session);
    return 0;
}
