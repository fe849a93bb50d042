/* Bodies: the handler of every interrupt line is one routine, a loop that takes the next event and does it. Whoever runs after an event
 * answers it. Nowhere does software choose who runs. */
#include "bench.h"
#include "kernel.h"

enum { STACK_WORDS = 256, SAVED_WORDS = 10 };

volatile uint32_t waiting, begun_bodies;
static uint32_t stacks[BODIES][STACK_WORDS] __attribute__((aligned(8))); /* of extended tasks; all others share one, above bss */
static uint32_t *common; /* the end of that one, while it is not in use */
extern uint32_t bss_start, bss_end, stack_top;
static volatile uint8_t status;
static volatile bool begun;

/* Read back from the controller: the urgency of the active line, or BASEPRI where that is better. */
static uint8_t level(uint32_t me)
{
    uint32_t own = NVIC_IPR[me], ceiling = basepri();
    return level_at[(ceiling != 0 && ceiling < own ? ceiling : own) / URGENCY_STEP];
}

static void run_events(void)
{
    do {
        uint32_t me = runner();
        send_answer(status, me, me == IDLE ? 0 : level(me), begun);
        begun = false;
    } while (next_event(&status));
}

__attribute__((naked)) static void switch_out(uint32_t **own, uint32_t *below)
{
    (void)own, (void)below;
    __asm volatile("push {r3-r11, lr}\n\t"
                   "str sp, [r0]\n\t"
                   "mov sp, r1\n\t"
                   "pop {r3-r11, pc}");
}

/* Goes to the stack of the body that this one interrupted, and returns from the exception. Masked already. */
void leave(uint32_t **own)
{
    struct body *me = &bodies[runner()];
    common = me->common;
    switch_out(own, me->below);
}

/* A body from its start to its end. */
static void body(void)
{
    uint32_t me = runner();
    uint32_t *unused;
    begun_bodies |= bit(me);
    begun = true;
    if (bodies[me].kind == TIME_TRIGGERED) {
        NVIC_IPR[me] = EXECUTION_URGENCY; /* from here on the next one may preempt it */
        synchronize();
    }
    run_events();
    mask_until_return();
    begun_bodies &= ~bit(me);
    if (bodies[me].kind == TIME_TRIGGERED)
        NVIC_IPR[me] = TRIGGER_URGENCY;
    leave(&unused);
}

/* The handler's prologue: the stack to go on with. A task that waited goes on where it waited; another begins, an extended one on its own
 * stack. `sp` has what the interrupted body left. */
__attribute__((used)) static uint32_t *switch_in(uint32_t *sp)
{
    uint32_t me = runner();
    bodies[me].below = sp;
    bodies[me].common = common;
    if (sp > &bss_end)
        common = sp;
    if (begun_bodies & bit(me))
        return bodies[me].own;
    uint32_t *own = (bodies[me].kind == EXTENDED ? stacks[me] + STACK_WORDS : common) - SAVED_WORDS;
    own[SAVED_WORDS - 1] = (uint32_t)body;
    return own;
}

__attribute__((naked)) static void handler(void)
{
    __asm volatile("push {r3-r11, lr}\n\t"
                   "mov r0, sp\n\t"
                   "sub sp, #40\n\t" /* where a body on this stack finds its first registers */
                   "bl switch_in\n\t"
                   "mov sp, r0\n\t"
                   "pop {r3-r11, pc}");
}

/* A fault of the processor: silence, which the bench tells. */
static void fail(void)
{
    for (;;)
        ;
}

void reset(void)
{
    for (uint32_t *word = &bss_start; word < &bss_end; word++)
        *word = 0;
    greet();
    read_configuration();
    mask();
    SCB_SHPR3 = (uint32_t)TICK_URGENCY << 24;
    NVIC_ISER = 0xFFFFFFFF;
    for (uint32_t b = 0; b < body_count; b++) {
        NVIC_IPR[b] = bodies[b].urgency;
        if (bodies[b].autostart)
            NVIC_ISPR = bit(b);
    }
    unmask();     /* the fresh start: the best autostart task begins */
    run_events(); /* idle is this loop in thread mode; it has no end */
    fail();
}

__attribute__((section(".vectors"), used)) static const void *const vectors[16 + BODIES] = {
    &stack_top, (void *)reset, [2 ... 14] = (void *)fail, [15] = (void *)tick, [16 ... 47] = (void *)handler,
};
