#include "page.h"

#include "events.h"
#include "report.h"
#include "style.h"
#include "timeline.h"

#include <stdio.h>

static void write_head(FILE *out, uint64_t seed, bool agree)
{
    fprintf(out, "<!doctype html>\n<html lang='en'><head><meta charset='utf-8'><meta name='viewport' content='width=device-width,initial-scale=1'>\n");
    fprintf(out, "<title>Who may wake the paused guest</title>\n<style>\n%s</style></head><body><main>\n", style);
    fprintf(out, "<h1>Who may wake the paused guest?</h1>\n");
    fprintf(out, "<p><span class='badge%s'>%s</span></p>\n", agree ? "" : " bad", agree ? "All hosts agree in every epoch" : "THE HOSTS DO NOT AGREE");
    fprintf(out, "<p>Four hosts, each with its own Belkjund engine. In each epoch every host offers its free memory; the engines agree on a batch of offers, "
                 "and by the batch each host knows, without asking the others, which one may wake the guest: the contributor with most room, the lowest "
                 "index on a tie. Then the guest is paused again, and the next epoch begins.</p>\n");
    fprintf(out, "<p class='soft'>%llu calls of four engines; the order in which messages arrive is that of seed %llu. "
                 "Simulated: the network, reliable broadcast, binary agreement and the threshold cipher. Real: the engines.</p>\n",
            (unsigned long long)calls_so_far(), (unsigned long long)seed);
}

/* The four hosts: memory from left to right */
static void write_scene(FILE *out)
{
    char host_mib[16], guest_mib[16];
    grouped(HOST_MIB, host_mib);
    grouped(GUEST_MIB, guest_mib);
    fprintf(out, "<div class='card'><svg viewBox='0 0 1140 150' role='img' aria-label='Four hosts; host 0 has a running and a paused guest'>\n");
    for (int h = 0; h < HOSTS; h++) {
        int x = 4 + h * 286;
        fprintf(out, "<rect class='box' x='%d' y='4' width='270' height='142' rx='10'/><text class='t b' x='%d' y='30'>host %d</text>", x, x + 16, h);
        fprintf(out, "<text class='t s' x='%d' y='30'>%s MiB</text>", x + 74, host_mib);
        fprintf(out, "<rect class='free' x='%d' y='44' width='238' height='34' rx='6'/><rect class='run' x='%d' y='44' width='%d' height='34' rx='6'/>", x + 16,
                x + 16, 112 - 9 * h);
        fprintf(out, "<text class='t w' x='%d' y='66'>%s</text>", x + 26, h == 0 ? "guest 1" : "guests");
        fprintf(out, "<text class='t s' x='%d' y='66'>free</text>", x + 210);
        if (h == 0)
            fprintf(out, "<rect class='paused' x='%d' y='92' width='%d' height='38' rx='6'/><text class='t' x='%d' y='116'>guest 2, paused; %s MiB</text>", x + 16, 238,
                    x + 26, guest_mib);
        else
            fprintf(out, "<text class='t s' x='%d' y='116'>may I wake guest 2?</text>", x + 16);
    }
    fprintf(out, "</svg></div>\n");
}

static void write_cell(FILE *out, int host, const struct conclusion *c)
{
    if (c->skipped)
        fprintf(out, "<td><span class='chip none'>skipped</span></td>");
    else if (!c->has_batch)
        fprintf(out, "<td><span class='chip none'>no batch</span></td>");
    else if (c->waker == NOBODY)
        fprintf(out, "<td><span class='chip none'>nobody</span></td>");
    else
        fprintf(out, "<td><span class='chip c%d%s'>host %d</span></td>", c->waker, c->waker == host ? " self" : "", c->waker);
}

static void write_table(FILE *out, const struct host hosts[HOSTS])
{
    fprintf(out, "<div class='card'><h2>What each host concludes</h2>\n<p class='soft'>A row of one colour is a row in which all agree. A frame: that host wakes "
                 "the guest.</p>\n<table><tr><th>epoch</th>");
    for (int h = 0; h < HOSTS; h++)
        fprintf(out, "<th>host %d says</th>", h);
    fprintf(out, "<th>what goes on</th></tr>\n");
    for (int e = 0; e < EPOCHS; e++) {
        fprintf(out, "<tr><td><b>%d</b> <span class='kind'>%s</span></td>", e, is_encrypted((uint64_t)e) ? "encrypted" : "plain");
        for (int h = 0; h < HOSTS; h++)
            write_cell(out, h, &hosts[h].conclusions[e]);
        fprintf(out, "<td>%s</td></tr>\n", story((uint64_t)e));
    }
    fprintf(out, "</table></div>\n");
}

static void write_legend(FILE *out)
{
    static const char *const marks[][2] = {
        {"<circle class='own' cx='9' cy='9' r='5.5'/>", "proposes"},
        {"<path class='bc' d='M9 1v16'/>", "broadcast message"},
        {"<path class='ag' d='M9 1v16'/>", "agreement message"},
        {"<path class='sh' d='M9 1v16'/>", "decryption share"},
        {"<path class='late' d='M9 6v6'/>", "late, ignored"},
        {"<path class='yes' d='M9 3l7 12h-14z'/>", "votes 1 for that host's proposal"},
        {"<path class='no' d='M9 15l7 -12h-14z'/>", "votes 0"},
        {"<path class='fault' d='M9 2l7 7l-7 7l-7 -7z'/>", "fault, by its number"},
        {"<path class='cross' d='M5 5l8 8m0 -8l-8 8'/>", "call turned down, by its reply"},
        {"<path class='batch' d='M9 1v16'/>", "batch, or skip"},
        {"<rect class='now' x='1' y='2' width='16' height='14' rx='3'/>", "the host is in this epoch"},
    };
    fprintf(out, "<div class='card'><div class='legend'>\n");
    for (unsigned i = 0; i < sizeof marks / sizeof marks[0]; i++)
        fprintf(out, "<span><svg viewBox='0 0 18 18'>%s</svg>%s</span>\n", marks[i][0], marks[i][1]);
    fprintf(out, "</div><p class='soft'>Time runs from left to right, one place for each call; every epoch fills the width. Rest the mouse on a mark to read what "
                 "happened in that call.</p></div>\n");
}

/* The offers of the batch that the hosts agreed on, with a mark at what the guest needs */
static void write_offers(FILE *out, const struct batch *b, int waker)
{
    char text[16];
    fprintf(out, "<div class='offers'>");
    for (int p = 0; p < HOSTS; p++) {
        fprintf(out, "<div class='offer'><b>host %d</b> ", p);
        if (b->free_mib[p] >= 0)
            fprintf(out, "%s MiB free%s<div class='bar'><i%s style='width:%.1f%%'></i><u></u></div>", grouped(b->free_mib[p], text), p == waker ? ": may wake it" : "",
                    p == waker ? " class='won'" : "", 100.0 * b->free_mib[p] / HOST_MIB);
        else if (b->unreadable >> p & 1)
            fprintf(out, "<span class='bad'>does not read (fault 5)</span><div class='bar'></div>");
        else
            fprintf(out, "<span class='soft'>not in the batch</span><div class='bar'></div>");
        fprintf(out, "</div>");
    }
    fprintf(out, "</div>\n");
}

static void write_epoch(FILE *out, const struct host hosts[HOSTS], int epoch)
{
    int with = 0;
    while (with < HOSTS - 1 && !hosts[with].conclusions[epoch].has_batch)
        with++;
    fprintf(out, "<section class='card'><h2>Epoch %d <span class='kind'>%s</span></h2><p>%s</p>\n", epoch, is_encrypted((uint64_t)epoch) ? "encrypted" : "plain",
            story((uint64_t)epoch));
    write_timeline(out, hosts, (uint64_t)epoch);
    write_offers(out, &hosts[with].conclusions[epoch].batch, hosts[with].conclusions[epoch].waker);
    fprintf(out, "</section>\n");
}

static void write_counts(FILE *out, const char *what, int number, const char *name, const uint64_t counts[HOSTS])
{
    if (counts[0] + counts[1] + counts[2] + counts[3] == 0)
        return;
    fprintf(out, "<tr><td>%s %d</td><td>%s</td>", what, number, name);
    for (int h = 0; h < HOSTS; h++)
        fprintf(out, "<td class='n'>%llu</td>", (unsigned long long)counts[h]);
    fprintf(out, "</tr>\n");
}

static void write_seen(FILE *out, const struct host hosts[HOSTS])
{
    uint64_t counts[HOSTS];
    fprintf(out, "<div class='card'><h2>What the engines said</h2><p class='soft'>Each call is first made without answers. Reply 8 says that the engine wants some and "
                 "has changed nothing; then the host asks its broadcast, agreement and cipher, and calls again.</p>\n"
                 "<table><tr><th></th><th></th><th class='n'>host 0</th><th class='n'>host 1</th><th class='n'>host 2</th><th class='n'>host 3</th></tr>\n");
    for (int r = 0; r < 32; r++) {
        for (int h = 0; h < HOSTS; h++)
            counts[h] = hosts[h].seen_replies[r];
        write_counts(out, "reply", r, hb_reply_name((uint64_t)r), counts);
    }
    for (int f = 1; f < 10; f++) {
        for (int h = 0; h < HOSTS; h++)
            counts[h] = hosts[h].seen_faults[f];
        write_counts(out, "fault", f, hb_fault_name((uint64_t)f), counts);
    }
    fprintf(out, "</table></div>\n");
}

bool write_page(const char *file, const struct host hosts[HOSTS], uint64_t seed, bool agree)
{
    FILE *out = fopen(file, "w");
    if (out == NULL)
        return false;
    write_head(out, seed, agree);
    write_scene(out);
    write_table(out, hosts);
    write_legend(out);
    for (int e = 0; e < EPOCHS; e++)
        write_epoch(out, hosts, e);
    write_seen(out, hosts);
    fprintf(out, "</main></body></html>\n");
    return fclose(out) == 0;
}
