#include "timeline.h"

#include "bytes.h"
#include "events.h"

/* Places in the picture */
enum { WIDTH = 1140, LEFT = 72, RIGHT = 940, LANE = 78, TOP = 8, HEIGHT = TOP + HOSTS * LANE + 6, MOST_CALLS = 4096 };

/* The calls of the epoch, in order; a call's place is its index, so that every epoch fills the width */
static uint64_t calls[MOST_CALLS];
static int call_count;

static void collect_calls(uint64_t epoch)
{
    call_count = 0;
    for (int i = 0; i < event_count(); i++) {
        const struct event *e = event_at(i);
        if (e->epoch == epoch && call_count < MOST_CALLS && (call_count == 0 || calls[call_count - 1] != e->call))
            calls[call_count++] = e->call;
    }
}

static double x_of(uint64_t call)
{
    int place = 0;
    while (place < call_count && calls[place] < call)
        place++;
    return LEFT + (place + 0.5) * (RIGHT - LEFT) / (call_count > 0 ? call_count : 1);
}

static double y_of(int host) { return TOP + host * LANE + 44; }

/* The call in which a host leaves an epoch: its batch or its skip; 0 if it never does */
static uint64_t leaves(int host, uint64_t epoch)
{
    for (int i = 0; i < event_count(); i++) {
        const struct event *e = event_at(i);
        if (e->host == host && e->epoch == epoch && (e->what == BATCH || e->what == SKIPPED))
            return e->call;
    }
    return 0;
}

/* A line for the words that show when the mouse is on a call */
static void write_words(FILE *out, const struct event *e)
{
    static const char *const contents[] = {"", "broadcast", "agreement", "decryption share"};
    switch (e->what) {
    case PROPOSED: fprintf(out, "host %d proposes\n", e->host); break;
    case HANDLED: fprintf(out, "host %d hears host %d: %s for the proposal of host %d\n", e->host, e->who, contents[e->number & 3], e->about); break;
    case LATE: fprintf(out, "host %d hears host %d: too late, the epoch is over here\n", e->host, e->who); break;
    case REFUSED: fprintf(out, "host %d turns down a message of sender %d: reply %u, %s\n", e->host, e->who, (unsigned)e->number, hb_reply_name(e->number)); break;
    case VALUE: fprintf(out, "the value of host %d is here: %s\n", e->about, text_of(e->number)); break;
    case VOTED: fprintf(out, "votes %u for the proposal of host %d\n", (unsigned)e->number, e->about); break;
    case DECIDED: fprintf(out, "the agreement about host %d decides %u\n", e->about, (unsigned)e->number); break;
    case FAULT: fprintf(out, "fault %u of host %d, %s\n", (unsigned)e->number, e->who, hb_fault_name(e->number)); break;
    case BATCH: fprintf(out, "batch with %u entries\n", (unsigned)e->number); break;
    case SKIPPED: fprintf(out, "skips to epoch %u\n", (unsigned)e->number); break;
    }
}

static void write_vote(FILE *out, double x, double y, const struct event *e)
{
    if (e->number == 1)
        fprintf(out, "<path class='yes' d='M%.1f %.1fl7 12h-14z'/>", x, y - 10);
    else
        fprintf(out, "<path class='no' d='M%.1f %.1fl7 -12h-14z'/>", x, y + 2);
    fprintf(out, "<text class='in' x='%.1f' y='%.1f'>%d</text>", x, e->number == 1 ? y + 0.5 : y - 2.5, e->about);
}

/* Faults of one kind in one call share a mark: the first of them writes it, with their number */
static void write_fault(FILE *out, double x, double y, int i, uint64_t epoch)
{
    const struct event *e = event_at(i);
    int times = 0;
    for (int k = i; k >= 0 && event_at(k)->call == e->call; k--)
        if (k < i && event_at(k)->what == FAULT && event_at(k)->epoch == epoch && event_at(k)->number == e->number)
            return;
    for (int k = i; k < event_count() && event_at(k)->call == e->call; k++)
        times += event_at(k)->what == FAULT && event_at(k)->epoch == epoch && event_at(k)->number == e->number;
    fprintf(out, "<path class='fault' d='M%.1f %.1fl7 7l-7 7l-7 -7z'/><text class='in' x='%.1f' y='%.1f'>%u</text>", x, y, x, y + 10, (unsigned)e->number);
    if (times > 1)
        fprintf(out, "<text class='times' x='%.1f' y='%.1f'>&times;%d</text>", x + 8, y + 11, times);
}

static void write_batch(FILE *out, double x, double y, const struct event *e)
{
    fprintf(out, "<path class='batch' d='M%.1f %.1fv40'/><text class='flag' x='%.1f' y='%.1f'>%s %u</text>", x, y - 32, x + 5, y - 25,
            e->what == BATCH ? "batch of" : "skips to epoch", (unsigned)e->number);
}

/* The mark of event i; `up` counts the votes of its call */
static void write_mark(FILE *out, int i, double x, int *up)
{
    static const char *const classes[] = {"", "bc", "ag", "sh"};
    const struct event *e = event_at(i);
    double y = y_of(e->host);
    switch (e->what) {
    case PROPOSED: fprintf(out, "<circle class='own' cx='%.1f' cy='%.1f' r='5.5'/>", x, y); break;
    case HANDLED: fprintf(out, "<path class='%s' d='M%.1f %.1fv16'/>", classes[e->number & 3], x, y - 8); break;
    case LATE: fprintf(out, "<path class='late' d='M%.1f %.1fv6'/>", x, y - 3); break;
    case VOTED: write_vote(out, x, y - 13 - 13 * (*up)++, e); break;
    case REFUSED:
        fprintf(out, "<path class='cross' d='M%.1f %.1fl7 7m0 -7l-7 7'/><text class='low' x='%.1f' y='%.1f'>%u</text>", x - 3.5, y - 3.5, x, y + 17,
                (unsigned)e->number);
        break;
    case FAULT: write_fault(out, x, y + 8, i, e->epoch); break;
    case BATCH:
    case SKIPPED: write_batch(out, x, y, e); break;
    case VALUE:
    case DECIDED: break; /* in the words alone */
    }
}

/* All events of one call, from event i on, as one group with its words; gives the index after them */
static int write_call(FILE *out, int i, uint64_t epoch)
{
    uint64_t call = event_at(i)->call;
    int end = i, up = 0;
    fprintf(out, "<g><title>");
    for (; end < event_count() && event_at(end)->call == call; end++)
        if (event_at(end)->epoch == epoch)
            write_words(out, event_at(end));
    fprintf(out, "</title>");
    for (int k = i; k < end; k++)
        if (event_at(k)->epoch == epoch)
            write_mark(out, k, x_of(call), &up);
    fprintf(out, "</g>\n");
    return end;
}

/* A lane: the time in which the epoch is the host's current one is shaded; at the right what the host concludes */
static void write_lane(FILE *out, int host, const struct conclusion *c, uint64_t epoch)
{
    uint64_t entry = epoch == 0 ? 0 : leaves(host, epoch - 1), end = leaves(host, epoch);
    double y = y_of(host), from = x_of(entry), to = end == 0 ? RIGHT : x_of(end);
    bool wakes = c->has_batch && c->waker == host;
    fprintf(out, "<rect class='now' x='%.1f' y='%.1f' width='%.1f' height='%d' rx='5'/>", from - 2, y - 38, to > from ? to - from + 2 : 2, LANE - 6);
    fprintf(out, "<path class='line' d='M%d %.1fH%d'/><text class='name' x='4' y='%.1f'>host %d</text>", LEFT, y, RIGHT, y + 5, host);
    fprintf(out, "<rect class='%s' x='%d' y='%.1f' width='186' height='30' rx='15'/>", wakes ? "wakes" : "rests", RIGHT + 10, y - 15);
    fprintf(out, "<text class='%s' x='%d' y='%.1f'>", wakes ? "says bright" : "says", RIGHT + 103, y + 5);
    if (c->skipped)
        fprintf(out, "skipped");
    else if (!c->has_batch)
        fprintf(out, "no batch");
    else if (c->waker == NOBODY)
        fprintf(out, "nobody may wake it");
    else if (wakes)
        fprintf(out, "I may: I wake it");
    else
        fprintf(out, "host %d may wake it", c->waker);
    fprintf(out, "</text>\n");
}

void write_timeline(FILE *out, const struct host hosts[HOSTS], uint64_t epoch)
{
    collect_calls(epoch);
    fprintf(out, "<svg viewBox='0 0 %d %d' role='img' aria-label='Calls of the four hosts in epoch %u'>\n", WIDTH, HEIGHT, (unsigned)epoch);
    for (int h = 0; h < HOSTS; h++)
        write_lane(out, h, &hosts[h].conclusions[epoch], epoch);
    for (int i = 0; i < event_count();)
        if (event_at(i)->epoch == epoch)
            i = write_call(out, i, epoch);
        else
            i++;
    fprintf(out, "</svg>\n");
}
