/* The requests on the fields of the lent file. A file of its own, so that the driver can be built before the archive has the call. */
#include "driver.h"

#include <string.h>

#include "../host/slovdrim.h"

static void fields(void)
{
    uint64_t file = take_word(), answers[PLACINGS][WORDS];
    int i, n = placings(&file_bytes);
    for (i = 0; i < n; i++) {
        const uint8_t *bytes = lent_at(&file_bytes, i);
        slovdrim_fields_answer a;
        about_to("slovdrim_fields", file, 0, 0, i, bytes, file_bytes.length);
        a = slovdrim_fields(file, bytes, file_bytes.length);
        memcpy(answers[i], &a, sizeof a);
    }
    give_answers(answers, n, sizeof(slovdrim_fields_answer) / 8);
}

static void fields_of_huge(void)
{
    uint64_t file = take_word(), length = take_word(), answers[PLACINGS][WORDS];
    const uint8_t *bytes = lend_huge(length, 1);
    slovdrim_fields_answer a;
    about_to("slovdrim_fields", file, 0, 0, 0, bytes, length);
    a = slovdrim_fields(file, bytes, length);
    memcpy(answers[0], &a, sizeof a);
    give_answers(answers, 1, sizeof a / 8);
    take_back_huge(bytes, length);
}

int fields_request(uint8_t letter)
{
    switch (letter) {
    case 'F':
        fields();
        return 1;
    case 'E':
        fields_of_huge();
        return 1;
    }
    return 0;
}
