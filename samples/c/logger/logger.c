/* A line for each report: who, and what. */
#include "microsys.h"
#include "decimal.h"

enum { MOTOR = 1 };

THREAD logger(void) {
    for (;;) {
        struct message report = sys_recv(CAP_LOG);
        sys_put_char(report.badge == MOTOR ? 'm' : 'h');
        put_decimal(report.words[0]);
        sys_put_char('\n');
    }
}
