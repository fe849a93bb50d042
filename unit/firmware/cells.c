/* Schedule tables: a timer cell for each entry. The cells are software and count in the tick exception, which lies above all bodies, so
 * that the controller arbitrates once, when it returns. */
#include "kernel.h"

enum status start_table(uint32_t table, uint32_t delay)
{
    struct table *t = &tables[table];
    if (delay == 0 || delay > 65535 || delay + cells[t->first].offset > 65535)
        return VALUE;
    if (t->runs)
        return STATE;
    t->runs = true;
    for (struct cell *c = cells + t->first; c < cells + t->end; c++) {
        uint32_t first_delay = delay + c->offset;
        c->counter = c->compare - first_delay;
        c->turn = first_delay > 65536; /* a turn of the counter has to pass unmatched */
        c->on = true;
    }
    return DONE;
}

enum status stop_table(uint32_t table)
{
    struct table *t = &tables[table];
    if (!t->runs)
        return NO_FUNCTION;
    t->runs = false;
    for (struct cell *c = cells + t->first; c < cells + t->end; c++) {
        c->counter = 0;
        c->on = c->turn = false;
    }
    return DONE;
}

static bool matches(struct cell *c)
{
    if (!c->on || ++c->counter != c->compare)
        return false;
    if (c->turn) {
        c->turn = false;
        return false;
    }
    c->counter = 65535; /* and not 0: the next tick wraps it, so that no period is a tick short */
    return true;
}

void tick(void)
{
    for (struct cell *c = cells; c < cells + CELLS; c++) {
        if (!matches(c))
            continue;
        if (suspended(c->task))
            make_ready(c->task);
        else
            lose(c->task);
    }
}
