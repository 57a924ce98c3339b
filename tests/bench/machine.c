/* The contact scenario written by hand as a state machine, as one would write
 * it for this one program: no table and no interpreter, the same outputs. */
#include <string.h>

#include "work.h"

struct machine machine_start(void)
{
    struct machine m = {false, 0, 0, 0};
    return m;
}

static void put_output(uint8_t *out, uint8_t name, int32_t value)
{
    out[0] = name;
    out[1] = out[2] = out[3] = 0;
    memcpy(out + 4, &value, sizeof value);
}

int machine_react(struct machine *m, uint32_t event, int32_t value,
                  uint8_t *out, size_t out_bytes)
{
    if (out_bytes < 3 * RECORD_BYTES)
        return -1;
    if (event == 1 && !m->has_easting) {
        m->easting = value;
        m->has_easting = true;
    } else if (event == 2 && m->has_easting) {
        m->northing = value;
        m->has_easting = false;
        m->contacts = (int32_t)((uint32_t)m->contacts + 1);
        put_output(out, 1, m->easting);
        put_output(out + RECORD_BYTES, 2, m->northing);
        put_output(out + 2 * RECORD_BYTES, 3, m->contacts);
        return 3;
    }
    return 0;
}

size_t machine_run_list(struct machine *m, const uint8_t *events,
                        size_t events_bytes, uint8_t *out, size_t out_bytes)
{
    size_t written = 0;
    for (size_t at = 0; at + RECORD_BYTES <= events_bytes;
         at += RECORD_BYTES) {
        int32_t value;
        int outputs;
        memcpy(&value, events + at + 4, sizeof value);
        outputs =
            machine_react(m, events[at], value, out + RECORD_BYTES * written,
                          out_bytes - RECORD_BYTES * written);
        if (outputs < 0)
            break;
        written += (size_t)outputs;
    }
    return written;
}
