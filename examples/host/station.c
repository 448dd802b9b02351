#include "station.h"

#include "faults.h"

static const struct body empty = {0, 0, 0};

void station_post(struct station *station, struct body edit)
{
    uint32_t refusal = engine_post(station->state, edit);
    put_post_line(&station->text, station->own, edit);
    if (refusal != RELAY_DONE)
        put_listing_line(&station->text, station->done, 'X', station->own, refusal, empty);
}

/* Hears one frame and tells what was taken; 0 where the frame is refused. From the stations of a run it is not: one
   that is refused now, though the check accepted it, comes from a station that does not take part in this run. */
static int hear(struct station *station, uint32_t sender, const struct kept *kept, struct text *takings)
{
    struct taking taken[MOST_STATIONS];
    size_t count;
    uint32_t refusal = engine_hear(station->state, kept->frame, kept->len, taken, &count);
    if (refusal != RELAY_DONE) {
        station->inbox.refused[refusal < REFUSALS ? refusal : 0]++;
        warn("round %lu: the frame of station %lu is refused with %lu", (unsigned long)station->done + 1,
             (unsigned long)sender, (unsigned long)refusal);
        return 0;
    }
    for (size_t k = 0; k < count; k++)
        put_listing_line(takings, station->done + 1, 'D', station->own, taken[k].source, taken[k].body);
    return 1;
}

static void take_turn(struct station *station)
{
    struct turn turn;
    uint32_t refusal = engine_turn(station->state, &turn), round = station->done + 1, own = station->own;
    if (refusal != RELAY_DONE)
        stop_with(STATUS_SYSTEM, "round %lu: the turn is refused with %lu", (unsigned long)round,
                  (unsigned long)refusal);
    for (uint32_t k = 0; k < station->n; k++)
        if (is_edit(turn.row[k]))
            put_listing_line(&station->text, round, 'A', own, k, turn.row[k]);
    if (turn.ended) {
        put_listing_line(&station->text, round, 'E', own, own, turn.ended_body);
        if (turn.started_body.kind != 0)
            put_listing_line(&station->text, round, 'D', own, own, turn.started_body);
    }
}

void station_close(struct station *station)
{
    static struct text takings; /* they are told behind the mask, which is known only when all are heard */
    uint32_t mask = 0;
    takings.len = 0;
    for (uint32_t sender = 0; sender < station->n; sender++) {
        const struct kept *kept = inbox_frame(&station->inbox, sender);
        if (kept != NULL && hear(station, sender, kept, &takings)) {
            mask |= 1u << sender;
            station->heard++;
            station->last_heard[sender] = station->done + 1;
        } else if (sender != station->own) {
            station->missed++;
        }
    }
    put_round_line(&station->text, mask);
    put_text(&station->text, &takings);
    take_turn(station);
    station->done++;
    inbox_close(&station->inbox);
}
