/* Questions by seed about a batch that batch.c made. */
#include "questions.h"

#include <string.h>

#include "draws.h"

enum { ZASTAVKY = 2, SPOJE = 6, FIRST_DAY = 36890 };

/* The start of some record of a file: the one behind the first LF after a place, or the first. */
static const uint8_t *some_record(const struct batch *batch, unsigned file)
{
    const uint8_t *bytes = batch->bytes[file], *end = bytes + batch->length[file], *p = bytes + below(batch->length[file]);
    p = (const uint8_t *)memchr(p, '\n', (size_t)(end - p)) + 1;
    return p < end ? p : bytes;
}

static struct plain_question sale(const struct batch *batch)
{
    const uint8_t *record = some_record(batch, SPOJE);
    uint64_t near = 1 + below(6), far = near + 1 + below(4), day = 1 + below(28), month = 6 + below(6);
    struct plain_question q = {batch_number(record, 1), batch_number(record, 2), day, month, 2001, near, far};
    if (q.trip % 2 == 0 || below(20) == 0) {
        q.from = far;
        q.to = near;
    }
    switch (below(60)) {
    case 0:
        q.day = 31;
        q.month = 9;
        break;
    case 1:
        q.trip += 900;
        break;
    case 2:
        q.line = UINT64_MAX;
        break;
    case 3:
        q.to = 99;
        break;
    default:
        break;
    }
    return q;
}

void questions_make(struct questions *questions, const struct batch *batch, uint64_t seed)
{
    size_t i;
    const uint8_t *p;
    state = seed;
    for (i = 0; i < HOLIDAYS; i++)
        questions->holidays[i] = FIRST_DAY + 14 * i + below(14);
    for (i = 0; i < QUESTIONS; i++)
        questions->asked[i] = sale(batch);
    p = some_record(batch, ZASTAVKY);
    for (i = 0; i < 4; i++) {
        const uint8_t *start = ++p;
        while (p[0] != '"' || (p[1] != ',' && p[1] != ';'))
            p++;
        if (i > 0)
            questions->names[i - 1] = (struct plain_text){start, (size_t)(p - start)};
        p += 2;
    }
}
