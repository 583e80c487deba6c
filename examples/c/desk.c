/* A quota desk in C: a click looks at a bucket, a double click grants space, Meta Return does so too, and a drag across the bar
 * sets the cap where it ends. */
#include "glykorant.h"

#include <stdint.h>
#include <stdio.h>
#include <string.h>

enum { KEY_PRESS = 2, BUTTON_PRESS = 4, BUTTON_RELEASE = 5, MOTION = 6, MULTI_CLICK_TIME = 200 };
enum { RETURN = 36, META = 64, MOD1 = 3, BUTTON1 = 8 }; /* two keycodes; Mod1's bit and row, Button1's bit */

static const char text[] =
    "<Btn1Down>(2): grant(space, \"10 GB\")\n"
    "<Btn1Down>:    look(bucket)\n"
    "Meta<Key>Return: grant(space, \"1 GB\")\n"
    "<Btn1Down>,<Btn1Motion>:          slide(bar)\n"
    "<Btn1Down>,<Btn1Motion>,<Btn1Up>: set(cap)\n";

static uint8_t table[TT_TABLE_LENGTH];
static uint8_t state[TT_STATE_LENGTH];
static uint8_t maps[TT_MAP_LENGTH + TT_MODIFIERS_LEAST];

static const uint8_t *text_bytes(void) { return (const uint8_t *)text; }
static size_t text_length(void) { return strlen(text); }

/* The first keysym of a keycode. */
static void put_keysym(int keycode, uint32_t keysym)
{
    for (int i = 0; i < 4; i++)
        maps[8 * (keycode - 8) + i] = (uint8_t)(keysym >> (8 * i));
}

/* A keyboard with Return, and with a left Meta that is Mod1. */
static void put_maps(void)
{
    put_keysym(RETURN, 0xff0d);
    put_keysym(META, 0xffe7);
    maps[TT_MAP_LENGTH + MOD1] = META;
}

/* A key, button or motion event as the server sends it, least significant byte first. */
static void input_event(uint8_t record[TT_RECORD_LENGTH], uint8_t code, uint8_t detail, uint16_t modifiers, uint32_t time)
{
    memset(record, 0, TT_RECORD_LENGTH);
    record[0] = code;
    record[1] = detail;
    record[28] = (uint8_t)modifiers;
    record[29] = (uint8_t)(modifiers >> 8);
    for (int i = 0; i < 4; i++)
        record[4 + i] = (uint8_t)(time >> (8 * i));
}

static const char *kind(uint8_t code)
{
    return code == KEY_PRESS ? "key" : code == BUTTON_PRESS ? "press" : code == MOTION ? "motion" : "release";
}

/* A part of the text. The table is not merged, so every part is one of its first text. */
static void put_part(uint64_t answer)
{
    fwrite(text + TT_START(answer), 1, TT_LENGTH(answer), stdout);
}

static void put_call(size_t production, size_t call)
{
    size_t parameters = TT_VALUE(tt_parameters(table, sizeof table, production, call));
    put_part(tt_name(table, sizeof table, text_bytes(), text_length(), text_bytes(), 0, production, call));
    for (size_t i = 0; i < parameters; i++) {
        fputs(i == 0 ? "(" : ", ", stdout);
        put_part(tt_parameter(table, sizeof table, text_bytes(), text_length(), text_bytes(), 0, production, call, i));
    }
    puts(parameters == 0 ? "()" : ")");
}

/* Hears one event, and prints the calls of the production that it selects. */
static void hear(uint8_t code, uint8_t detail, uint16_t modifiers, uint32_t time)
{
    uint8_t record[TT_RECORD_LENGTH];
    input_event(record, code, detail, modifiers, time);
    uint64_t answer = tt_match(table, sizeof table, maps, sizeof maps, MULTI_CLICK_TIME,
                               state, sizeof state, record, sizeof record, 'l');
    if (TT_NUMBER(answer) != TT_ACCEPTED) {
        printf("refused with %u\n", TT_NUMBER(answer));
        return;
    }
    size_t selected = TT_VALUE(answer);
    if (selected == 0)
        return;
    size_t calls = TT_VALUE(tt_calls(table, sizeof table, selected - 1));
    for (size_t i = 0; i < calls; i++) {
        printf("%s at %lu: ", kind(code), (unsigned long)time);
        put_call(selected - 1, i);
    }
}

int main(void)
{
    uint64_t answer = tt_compile(text_bytes(), text_length(), table, sizeof table);
    if (TT_NUMBER(answer) != TT_ACCEPTED) {
        printf("refused with %u at byte %u\n", TT_NUMBER(answer), (unsigned)TT_VALUE(answer));
        return 1;
    }
    put_maps();
    tt_fresh(state, sizeof state);
    hear(BUTTON_PRESS, 1, 0, 1000);
    hear(BUTTON_RELEASE, 1, 0, 1040);
    hear(BUTTON_PRESS, 1, 0, 1120);
    hear(BUTTON_RELEASE, 1, 0, 1160);
    hear(BUTTON_PRESS, 1, 0, 5000);
    hear(BUTTON_RELEASE, 1, 0, 5040);
    hear(KEY_PRESS, RETURN, 0, 6000);
    hear(KEY_PRESS, RETURN, 1 << MOD1, 6100);
    hear(BUTTON_PRESS, 1, 0, 7000);
    for (uint32_t time = 7010; time <= 7030; time += 10)
        hear(MOTION, 0, 1 << BUTTON1, time);
    hear(BUTTON_RELEASE, 1, 1 << BUTTON1, 7040);
    return 0;
}
