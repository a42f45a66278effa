/* wn_run as a host calls it: what holds of both machines, and the refusals that only wn_run has. The last line is
** 'N passed, M failed'.
*/
#include "both.h"

static void access_refusals(void)
{
    expect_changed(wn_run, "a variable of main with open", 46, 2, WN_OPEN_EXPOSED, 44);
    expect_changed(wn_run, "an integer inside that needs a call", 142, 0, WN_FALSE_RAISE, 140);
    expect_changed(wn_run, "a record is put", 71, 0, WN_WRONG_KIND, 68);
    expect_changed(wn_run, "a slot of what is not opened", 142, 1, WN_MISSING_RIGHT, 148);
}

int main(void)
{
    hold_of_both(wn_run);
    access_refusals();
    return finish();
}
