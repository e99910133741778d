// speed: counts every case for all the gateways. speed check SEED PLANS: compares them.
// A line for each figure: its table, row and column (or none), the turns, and the instructions of all the turns, of one gateway after the other,
// with tabs between. A line that begins with # is a note.
#include "cases.h"
#include "check.h"
#include "steps.h"

static struct run runs[GATEWAYS];

static void print_figure(const char *table, const char *row, const char *column, int turns, const uint64_t figure[GATEWAYS])
{
    print(table);
    print("\t");
    print(row);
    print("\t");
    print(column);
    print("\t");
    print_number(turns);
    for (int g = 0; g < GATEWAYS; g++) {
        print("\t");
        print_number(figure[g]);
    }
    print("\n");
}

// As many turns run uncounted first, so the count is that of twice the turns less that of the turns.
static void count(const char *table, const char *row, const char *column, const struct scene *scene, struct setting setting)
{
    int turns = scene->turns ? scene->turns : setting.rows;
    uint64_t steps[GATEWAYS];
    for (int g = 0; g < GATEWAYS; g++) {
        struct run *run = &runs[g];
        run->gateway = &gateways[g];
        run->digest = 0;
        scene->begin(run, &setting);
        for (int i = 0; i < 2 * turns; i++) {
            run->counting = i >= turns;
            steps_count(run->counting);
            scene->turn(run, &setting, i);
        }
        steps_count(0);
        steps[g] = steps_taken();
        look_at_payloads(run);
        if (run->digest != runs[0].digest) {
            print("# the gateways differ\n");
            stop(1);
        }
    }
    print_figure(table, row, column, turns, steps);
}

static void receptions(const char *row, const struct scene *scene, struct setting setting)
{
    static const int rows[] = {1, 16, 64, 200, 256};
    static const char *const column[] = {"1 row", "16 rows", "64 rows", "200 rows", "256 rows"};
    for (int i = 0; i < 5; i++) {
        setting.rows = rows[i];
        count("reception", row, column[i], scene, setting);
    }
}

static void all_receptions(void)
{
    static const struct {
        const char *row;
        struct setting setting;
    } copied[] = {
        {"1 × 1 bit, 1 destination", {.signals = 1, .bits = 1, .destinations = 1}},
        {"1 × 1 bit, 2 destinations", {.signals = 1, .bits = 1, .destinations = 2}},
        {"1 × 8 bits, 1 destination", {.signals = 1, .bits = 8, .destinations = 1}},
        {"1 × 8 bits, 2 destinations", {.signals = 1, .bits = 8, .destinations = 2}},
        {"1 × 12 bits, 1 destination", {.signals = 1, .bits = 12, .destinations = 1}},
        {"1 × 12 bits, 2 destinations", {.signals = 1, .bits = 12, .destinations = 2}},
        {"1 × 64 bits, 1 destination", {.signals = 1, .bits = 64, .destinations = 1}},
        {"1 × 64 bits, 2 destinations", {.signals = 1, .bits = 64, .destinations = 2}},
        {"4 × 1 bit, 1 destination", {.signals = 4, .bits = 1, .destinations = 1}},
        {"4 × 1 bit, 2 destinations", {.signals = 4, .bits = 1, .destinations = 2}},
        {"4 × 8 bits, 1 destination", {.signals = 4, .bits = 8, .destinations = 1}},
        {"4 × 8 bits, 2 destinations", {.signals = 4, .bits = 8, .destinations = 2}},
        {"4 × 12 bits, 1 destination", {.signals = 4, .bits = 12, .destinations = 1}},
        {"4 × 12 bits, 2 destinations", {.signals = 4, .bits = 12, .destinations = 2}},
        {"4 × 64 bits, 1 destination", {.signals = 4, .bits = 64, .destinations = 1}},
        {"4 × 64 bits, 2 destinations", {.signals = 4, .bits = 64, .destinations = 2}},
    };
    receptions("no such ID", &stranger_case, (struct setting){0});
    receptions("no signal", &lookup_case, (struct setting){0});
    for (size_t i = 0; i < sizeof copied / sizeof *copied; i++)
        receptions(copied[i].row, &reception_case, copied[i].setting);
}

// What a signal and a destination take, on a node with one row.
static void copies(const char *row, int bits, int edge)
{
    static const char *const column[] = {"big order, 1", "big order, 2", "little order, 1", "little order, 2"};
    for (int i = 0; i < 4; i++)
        count("copy", row, column[i], &reception_case,
              (struct setting){.order = i / 2, .rows = 1, .signals = 1, .bits = bits, .destinations = i % 2 + 1, .edge = edge});
}

static void all_copies(void)
{
    copies("1 bit", 1, 0);
    copies("8 bits in one byte", 8, 1);
    copies("8 bits in two bytes", 8, 0);
    copies("12 bits in two bytes", 12, 1);
    copies("12 bits in three bytes", 12, 0);
    copies("64 bits in eight bytes", 64, 0);
}

static void ticks(const char *row, const struct scene *scene, int timers)
{
    static const int prescaler[] = {1, 2, 10, 20};
    static const char *const column[] = {"prescaler 1", "prescaler 2", "prescaler 10", "prescaler 20"};
    for (int p = 0; p < 4; p++)
        count("tick", row, column[p], scene, (struct setting){.timers = timers, .prescaler = prescaler[p]});
}

static void all_ticks(void)
{
    ticks("16 Tx", &tx_tick_case, 16);
    ticks("64 Tx", &tx_tick_case, 64);
    ticks("256 Tx", &tx_tick_case, 256);
    ticks("16 Rx", &rx_tick_case, 16);
    ticks("64 Rx", &rx_tick_case, 64);
    ticks("256 Rx", &rx_tick_case, 256);
    count("expiry", "256 Tx", "", &tx_expiry_case, (struct setting){.timers = 256});
    count("expiry", "256 Rx", "", &rx_expiry_case, (struct setting){.timers = 256});
}

static void queues(void)
{
    count("queue", "reception that schedules, then 1 waits", "", &schedule_case, (struct setting){.waiting = 1});
    count("queue", "reception that schedules, then 256 wait", "", &schedule_case, (struct setting){.waiting = 256});
    count("queue", "take, none waits", "", &nothing_case, (struct setting){0});
    count("queue", "take, 1 waits", "", &take_case, (struct setting){.waiting = 1});
    count("queue", "take, 256 wait", "", &take_case, (struct setting){.waiting = 256});
    count("queue", "payload of a taken frame", "", &payload_case, (struct setting){0});
}

static void plans(void)
{
    count("plan", "opening the largest", "", &opening_case, (struct setting){0});
    count("plan", "car: opening", "", &car_opening_case, (struct setting){0});
    count("plan", "car: reception, mean of its 168 frames", "", &car_reception_case, (struct setting){0});
    count("plan", "car: tick, mean of 20", "", &car_tick_case, (struct setting){0});
    count("plan", "car: 10 ms of traffic, mean of 10", "", &car_case, (struct setting){0});
}

// The most that was seen of each call, in bytes.
static void stacks(void)
{
    static const char *const name[CALLS] = {"open", "receive", "tick", "take", "payload"};
    for (int call = 0; call < CALLS; call++) {
        uint64_t bytes[GATEWAYS];
        for (int g = 0; g < GATEWAYS; g++)
            bytes[g] = runs[g].stack[call];
        print_figure("stack", name[call], "", 1, bytes);
    }
}

int program(int words, char **word)
{
    if (words == 4)
        return check(word[2], word[3]);
    steps_begin();
    all_receptions();
    all_copies();
    all_ticks();
    queues();
    plans();
    stacks();
    print("# The tables of the C programs take ");
    print_number(sizeof(struct tables));
    print(" bytes of their area.\n");
    return 0;
}
