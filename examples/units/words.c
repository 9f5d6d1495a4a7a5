#include <ctype.h>
#include "words.h"

static unsigned length;

void take(struct words *words, int byte)
{
    if (byte >= 0 && !isspace(byte)) {
        length++;
        return;
    }
    if (length > 0) words->count++;
    if (length > words->longest) words->longest = length;
    length = 0;
}
