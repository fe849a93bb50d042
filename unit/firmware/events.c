/* The twelve events, each done in the context of the body that runs. */
#include "bench.h"
#include "kernel.h"

enum { ACTIVATE = 1, FINISH, CHAIN, GET, RELEASE, TICK, LINE, START, STOP, WAIT, SET, CLEAR };

/* Resources are held strictly nested, the runner's on top: one stack for all, with the BASEPRI from before. */
static struct { uint8_t resource, holder, basepri; } held[RESOURCES];
static uint32_t held_count;

static bool holds_any(uint32_t me) { return held_count > 0 && held[held_count - 1].holder == me; }

static bool is_held(uint32_t resource)
{
    for (uint32_t i = 0; i < held_count; i++)
        if (held[i].resource == resource)
            return true;
    return false;
}

static bool may_call(uint32_t me) { return me != IDLE && bodies[me].kind != TIME_TRIGGERED; }
static bool is_task(uint32_t body) { return body < body_count && bodies[body].kind != ISR; }
static bool may_be_activated(uint32_t body) { return is_task(body) && bodies[body].kind != TIME_TRIGGERED; }

static enum status activate(uint32_t me, uint32_t task)
{
    if (!may_call(me))
        return CALL_LEVEL;
    if (!may_be_activated(task))
        return ID;
    if (!suspended(task))
        return LIMIT;
    make_ready(task);
    return DONE;
}

static enum status finish(uint32_t me)
{
    if (me == IDLE)
        return CALL_LEVEL;
    return holds_any(me) ? RESOURCE_HELD : DONE;
}

static enum status chain(uint32_t me, uint32_t task)
{
    if (!may_call(me) || bodies[me].kind == ISR)
        return CALL_LEVEL;
    if (!may_be_activated(task))
        return ID;
    if (holds_any(me))
        return RESOURCE_HELD;
    if (task != me && !suspended(task))
        return LIMIT;
    mask_until_return(); /* the successor begins when the caller has ended */
    make_ready(task);
    return DONE;
}

static enum status get(uint32_t me, uint32_t resource)
{
    if (!may_call(me))
        return CALL_LEVEL;
    if (resource >= resource_count)
        return ID;
    if (!(resources[resource].users & bit(me)))
        return NOT_A_USER;
    if (is_held(resource))
        return ACCESS;
    held[held_count].resource = resource;
    held[held_count].holder = me;
    held[held_count++].basepri = basepri();
    raise_basepri(resources[resource].ceiling);
    return DONE;
}

static enum status release(uint32_t me, uint32_t resource)
{
    if (!may_call(me))
        return CALL_LEVEL;
    if (resource >= resource_count)
        return ID;
    if (!holds_any(me) || held[held_count - 1].resource != resource)
        return NO_FUNCTION;
    held_count--;
    set_basepri(held[held_count].basepri); /* whoever waited below the ceiling begins here, before the next line */
    return DONE;
}

static enum status line(uint32_t isr)
{
    if (isr >= body_count || bodies[isr].kind != ISR)
        return ID;
    if (NVIC_ISPR & bit(isr)) {
        if (version >= 2)
            lose(isr);
        return LIMIT;
    }
    request(isr);
    return DONE;
}

static enum status start(uint32_t me, uint32_t table, uint32_t delay)
{
    if (!may_call(me))
        return CALL_LEVEL;
    return table >= table_count ? ID : start_table(table, delay);
}

static enum status stop(uint32_t me, uint32_t table)
{
    if (!may_call(me))
        return CALL_LEVEL;
    return table >= table_count ? ID : stop_table(table);
}

static enum status wait(uint32_t me, uint32_t awaited)
{
    if (!may_call(me))
        return CALL_LEVEL;
    if (bodies[me].kind != EXTENDED)
        return ACCESS;
    if (holds_any(me))
        return RESOURCE_HELD;
    if (bodies[me].bits & awaited)
        return DONE;
    mask_until_return();
    bodies[me].awaited = awaited;
    waiting |= bit(me);
    leave(&bodies[me].own);
    return DONE;
}

static enum status set(uint32_t me, uint32_t task, uint32_t bits)
{
    if (!may_call(me))
        return CALL_LEVEL;
    if (!is_task(task))
        return ID;
    if (bodies[task].kind != EXTENDED)
        return ACCESS;
    if (suspended(task))
        return STATE;
    bodies[task].bits |= bits;
    if (waiting & bit(task) && bodies[task].bits & bodies[task].awaited) {
        waiting &= ~bit(task);
        request(task);
    }
    return DONE;
}

static enum status clear(uint32_t me, uint32_t bits)
{
    if (!may_call(me))
        return CALL_LEVEL;
    if (bodies[me].kind != EXTENDED)
        return ACCESS;
    bodies[me].bits &= ~bits;
    return DONE;
}

static enum status count_tick(void)
{
    SCB_ICSR = ICSR_PENDSTSET;
    synchronize();
    return DONE;
}

static enum status do_event(uint32_t me, uint32_t code)
{
    uint32_t first = code == TICK || code == FINISH ? 0 : read_number();
    uint32_t second = code == START || code == SET ? read_number() : 0;
    switch (code) {
    case ACTIVATE: return activate(me, first);
    case FINISH: return finish(me);
    case CHAIN: return chain(me, first);
    case GET: return get(me, first);
    case RELEASE: return release(me, first);
    case TICK: return count_tick();
    case LINE: return line(first);
    case START: return start(me, first, second);
    case STOP: return stop(me, first);
    case WAIT: return wait(me, first);
    case SET: return set(me, first, second);
    default: return clear(me, first);
    }
}

/* The status is DONE before the effect: whoever the effect lets begin, or resumes, tells it to the bench. */
bool next_event(volatile uint8_t *status)
{
    if (!more_events())
        end_run();
    uint32_t code = read_number();
    *status = DONE;
    enum status given = do_event(runner(), code);
    if (given != DONE)
        *status = given;
    return !(given == DONE && (code == FINISH || code == CHAIN));
}
