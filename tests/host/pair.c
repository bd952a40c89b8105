/* Gives one call to the archive and to the model, and compares everything that a call reports or may touch:
   all ten fields of the answer, every byte of out, every number of the list, the guard bytes around each lent buffer
   and around the device, the lent input and the lent settings, and after a refusal the whole device. */
#include "pair.h"
#include "dice.h"
#include "lent.h"
#include "model.h"
#include "reached.h"
#include <stdio.h>
#include <stdlib.h>
#include <string.h>

static uint64_t seed, calls;
static lent device, input, settings, out, list, text, model_out, model_list, model_text;
static model_state model;
static zb_state before;
static const uint8_t *given; /* the caller's own copy of the input */

/* The last call, to be printed where something differs. */
static struct {
    enum call call;
    uint32_t client;
    uint64_t now;
    size_t size, out_len, list_len;
    zb_answer archive, model;
} last;

void pair_open(uint64_t with_seed)
{
    seed = with_seed;
    device = lent_make(sizeof(zb_state));
    input = lent_make(MOST_TEXT);
    settings = lent_make(sizeof(zb_settings));
    out = lent_make(MOST_FRAME);
    model_out = lent_make(MOST_FRAME);
    list = lent_make(MOST_LIST * sizeof(uint16_t));
    model_list = lent_make(MOST_LIST * sizeof(uint16_t));
    text = lent_make(MOST_TEXT);
    model_text = lent_make(MOST_TEXT);
}

uint64_t pair_calls(void)
{
    return calls;
}

const uint8_t *pair_out(void)
{
    return out.at;
}

const uint16_t *pair_list(void)
{
    return (const uint16_t *)(const void *)list.at;
}

static void print_answer(const char *whose, zb_answer a)
{
    printf("%s: refusal %u line %u outcome %u length %u parties %u partial %u value %u set %08x id %u code %u\n", whose,
           a.refusal, a.line, a.outcome, a.length, a.parties, a.partial, a.value, a.set, a.id, a.code);
}

static void print_bytes(const char *what, const uint8_t *bytes, size_t size)
{
    printf("%s:", what);
    for (size_t k = 0; k < size; k++)
        printf(" %02x", bytes[k]);
    printf("\n");
}

_Noreturn void pair_differs(const char *what)
{
    printf("DIFFERENCE: %s, seed %llu, call %llu: %s\n", call_names[last.call], (unsigned long long)seed,
           (unsigned long long)calls, what);
    printf("client %u now %llu out_len %zu list_len %zu\n", last.client, (unsigned long long)last.now, last.out_len,
           last.list_len);
    print_answer("archive", last.archive);
    print_answer("model", last.model);
    print_bytes("input", given, last.size);
    print_bytes("out of the archive", out.at, out.length);
    print_bytes("out of the model", model_out.at, model_out.length);
    print_bytes("list of the archive", list.at, list.length);
    print_bytes("list of the model", model_list.at, model_list.length);
    printf("host tests: %llu calls, 1 differences\n", (unsigned long long)calls);
    exit(1);
}

static size_t some_gap(void)
{
    return one_in(2) ? 0 : 2 * below(GUARD / 2 + 1);
}

static void lend_input(const uint8_t *bytes, size_t size)
{
    uint8_t fill = (uint8_t)dice();
    lent_place(&input, size, one_in(2) ? 0 : below(GUARD + 1), fill);
    memcpy(input.at, bytes, size);
    given = bytes;
    last.size = size;
}

/* Settings that the archive can only read, at a place that is aligned to 4 bytes. */
static const zb_settings *lend_settings(const zb_settings *from)
{
    uint8_t fill = (uint8_t)dice();
    lent_place(&settings, sizeof *from, 4 * below(GUARD / 4 + 1), fill);
    memcpy(settings.at, from, sizeof *from);
    lent_shut(&settings);
    return (const zb_settings *)(const void *)settings.at;
}

/* After the call they are as they were; what is made of them does not need them any more. */
static void take_settings_back(const zb_settings *from)
{
    if (memcmp(settings.at, from, sizeof *from) != 0)
        pair_differs("the lent settings changed");
    if (!lent_is_guarded(&settings))
        pair_differs("a guard byte of the settings changed");
    lent_open(&settings);
    memset(settings.at, settings.fill, settings.length);
}

/* The same bytes to both, the archive's at a place of its own. */
static void lend_twice(lent *archives, lent *models, size_t length)
{
    uint8_t fill = (uint8_t)dice();
    lent_place(archives, length, some_gap(), fill);
    lent_place(models, length, GUARD, fill);
}

static void begin(enum call call, uint32_t client, uint64_t now, size_t out_len, size_t list_len)
{
    calls++;
    last.call = call;
    last.client = client;
    last.now = now;
    last.size = 0;
    last.out_len = out_len;
    last.list_len = list_len;
    lend_twice(&out, &model_out, out_len);
    lend_twice(&list, &model_list, list_len * sizeof(uint16_t));
    if (device.length)
        memcpy(&before, device.at, sizeof before);
}

static void compare_lent(const lent *archives, const lent *models, const char *bytes, const char *guards)
{
    if (memcmp(archives->at, models->at, archives->length) != 0)
        pair_differs(bytes);
    if (!lent_is_guarded(archives) || !lent_is_guarded(models))
        pair_differs(guards);
}

/* A call that leaves the device alone, but for the clock where it sets it. */
static void compare_device(zb_answer a)
{
    bool same = a.refusal != 0 || last.call == CALL_SPLIT || last.call == CALL_READ || last.call == CALL_WRITE;
    if (a.outcome == ZB_EXCEPTION || a.outcome == ZB_NOTHING_DUE || a.outcome == ZB_HIT) {
        before.clock = last.now;
        same = true;
    }
    if (last.call == CALL_FRESH)
        same = false;
    if (same && device.length && memcmp(&before, device.at, sizeof before) != 0)
        pair_differs("the device changed");
    if (!lent_is_guarded(&device))
        pair_differs("a guard byte of the device changed");
}

/* The next deadline after each call: the model's, and looking at it changes nothing. */
static void compare_next(void)
{
    if (!device.length)
        return;
    memcpy(&before, device.at, sizeof before);
    zb_next archive = zb_next_deadline((zb_state *)(void *)device.at);
    zb_next models = model_next_deadline(&model);
    if (archive.time != models.time || archive.live != models.live)
        pair_differs("the next deadline");
    if (memcmp(&before, device.at, sizeof before) != 0)
        pair_differs("the device changed with a look at the next deadline");
}

static zb_answer end(zb_answer archive, zb_answer models)
{
    last.archive = archive;
    last.model = models;
    if (memcmp(&archive, &models, sizeof archive) != 0)
        pair_differs("the answer");
    compare_lent(&out, &model_out, "the out buffer", "a guard byte of out changed");
    compare_lent(&list, &model_list, "the list", "a guard byte of the list changed");
    if (last.size && memcmp(input.at, given, last.size) != 0)
        pair_differs("the lent input changed");
    if (!lent_is_guarded(&input))
        pair_differs("a guard byte of the input changed");
    compare_device(archive);
    compare_next();
    reached_answer(last.call, archive);
    return archive;
}

static zb_state *state(void)
{
    return (zb_state *)(void *)device.at;
}

static uint16_t *numbers(const lent *l)
{
    return (uint16_t *)(void *)l->at;
}

zb_answer pair_fresh(const zb_settings *from)
{
    uint8_t fill = (uint8_t)dice();
    lent_place(&device, sizeof(zb_state), 8 * below(GUARD / 8 + 1), fill);
    begin(CALL_FRESH, 0, 0, 0, 0);
    zb_answer archive = zb_fresh(state(), lend_settings(from));
    take_settings_back(from);
    return end(archive, model_fresh(&model, *from));
}

zb_answer pair_attach(uint32_t client)
{
    begin(CALL_ATTACH, client, 0, 0, 0);
    return end(zb_attach(state(), client), model_attach(&model, client));
}

zb_answer pair_detach(uint32_t client)
{
    begin(CALL_DETACH, client, 0, 0, 0);
    return end(zb_detach(state(), client), model_detach(&model, client));
}

zb_answer pair_request(uint32_t client, uint64_t now, const uint8_t *frame, size_t size, size_t out_len)
{
    begin(CALL_REQUEST, client, now, out_len, 0);
    lend_input(frame, size);
    return end(zb_request(state(), client, now, input.at, size, out.at, out_len),
               model_request(&model, client, now, frame, size, model_out.at, out_len));
}

zb_answer pair_reply(uint64_t now, const uint8_t *frame, size_t size, size_t out_len, size_t list_len)
{
    begin(CALL_REPLY, 0, now, out_len, list_len);
    lend_input(frame, size);
    return end(zb_reply(state(), now, input.at, size, out.at, out_len, numbers(&list), list_len),
               model_reply(&model, now, frame, size, model_out.at, out_len, numbers(&model_list), list_len));
}

zb_answer pair_tick(uint64_t now, size_t out_len, size_t list_len)
{
    zb_next next = zb_next_deadline(state());
    begin(CALL_TICK, 0, now, out_len, list_len);
    zb_answer a = end(zb_tick(state(), now, out.at, out_len, numbers(&list), list_len),
                      model_tick(&model, now, model_out.at, out_len, numbers(&model_list), list_len));
    if (!a.refusal && a.outcome != (now < next.time ? ZB_NOTHING_DUE : ZB_TIMED_OUT))
        pair_differs("the tick is not what the next deadline said");
    return a;
}

zb_answer pair_link_lost(void)
{
    begin(CALL_LINK_LOST, 0, 0, 0, 0);
    return end(zb_link_lost(state()), model_link_lost(&model));
}

zb_answer pair_split(const uint8_t *run, size_t size)
{
    begin(CALL_SPLIT, 0, 0, 0, 0);
    lend_input(run, size);
    return end(zb_split(input.at, size), model_split(run, size));
}

zb_answer pair_settings_read(const uint8_t *bytes, size_t size)
{
    begin(CALL_READ, 0, 0, 0, 0);
    lend_input(bytes, size);
    zb_read archive = zb_settings_read(input.at, size);
    zb_read models = model_settings_read(bytes, size);
    end(archive.answer, models.answer);
    if (memcmp(&archive.settings, &models.settings, sizeof archive.settings) != 0)
        pair_differs("the settings that were read");
    return archive.answer;
}

zb_answer pair_settings_write(const zb_settings *from, size_t text_len)
{
    begin(CALL_WRITE, 0, 0, 0, 0);
    lend_twice(&text, &model_text, text_len);
    zb_answer archive = zb_settings_write(lend_settings(from), text.at, text_len);
    take_settings_back(from);
    zb_answer a = end(archive, model_settings_write(*from, model_text.at, text_len));
    compare_lent(&text, &model_text, "the text buffer", "a guard byte of the text changed");
    return a;
}
