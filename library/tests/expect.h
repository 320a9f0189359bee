/* What the tests have in common: what they expect, and an operation with its event and its entry. */
#include <stdio.h>
#include <string.h>

#include "lichenknit.h"

static int failed = 0;

static void expect(const char *call, sci_status found, sci_status wanted) {
    if (found != wanted) {
        printf("%s: %s, and not: %s\n", call, sci_status_text(found), sci_status_text(wanted));
        failed = 1;
    }
}

#define EXPECT(call, status) expect(#call, (call), (status))

static void check(const char *what, int holds) {
    if (!holds) {
        printf("%s\n", what);
        failed = 1;
    }
}

#define CHECK(fact) check(#fact, (fact))

static const sci_op store = { SCI_STORE, 0, 3, 0, 0, 42 };
static const sci_event issue = { SCI_ISSUE, 0, 0, 0, 0, { SCI_STORE, 0, 3, 0, 0, 42 } };
static const sci_entry entry = { 0, 0, 0, 0, { SCI_STORE, 0, 3, 0, 0, 42 }, 0, 1 };
