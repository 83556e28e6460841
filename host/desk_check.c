/* desk check: the library's verdict on a batch. */
#include "desk.h"

enum status run_check(const struct arguments *arguments)
{
    struct batch batch;
    slovdrim_check_answer a;
    enum status status = read_batch(arguments->given[0], &batch);
    if (status != ANSWERED)
        return status;
    a = slovdrim_check_hinted(EACH_FILE(&batch), batch.order, batch.order_count);
    end_waiting();
    if (a.number == SLOVDRIM_ANSWER)
        printf("ACCEPTED stops %" PRIu64 " lines %" PRIu64 " trips %" PRIu64 " trip stops %" PRIu64 "\n", a.stops, a.lines, a.trips, a.trip_stops);
    else
        status = refuse_batch(&batch, REFUSAL_OF(a));
    free_batch(&batch);
    return status;
}
