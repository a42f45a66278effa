/* What the header has without a library: the version, and the words of the numbers. scripts/test-c.sh compares the words
** with the comments beside the numbers. The last line is 'N passed, M failed'.
*/
#include <string.h>

#include "harness.h"
#include "wennathig.h"

static void version(void)
{
    char dotted[32];

    sprintf(dotted, "%d.%d.%d", WN_VERSION_MAJOR, WN_VERSION_MINOR, WN_VERSION_PATCH);
    tally(strcmp(WN_VERSION, dotted) == 0, "the version as text is what its parts say");
}

static void words(void)
{
    tally(strcmp(wn_word(WN_ACCEPTED), "accepted") == 0, "the first word");
    tally(strcmp(wn_word(WN_DONE), "done") == 0, "a word between");
    tally(strcmp(wn_word(WN_SHORT), "short") == 0, "the last word");
    tally(strcmp(wn_word(WN_SHORT + 1), "no such number") == 0, "one number too far");
    tally(strcmp(wn_word(UINT64_C(1) << 32), "no such number") == 0, "a number of 33 bits");
    tally(strcmp(wn_word(UINT64_MAX), "no such number") == 0, "the largest number");
}

int main(void)
{
    version();
    words();
    return finish();
}
