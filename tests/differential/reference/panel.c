// The panel's verdict: both buffers are read within the bounds of the office, then values must keep those of the panel.
#include "reference.h"

static bool are_short(const struct polynomial *f, uint32_t count, uint32_t size)
{
    for (uint32_t i = 0; i < count; i++)
        if (f[i].size > size)
            return false;
    return true;
}

static bool system_fits(const struct system *s)
{
    bool fits = s->n <= PANEL_MOST && s->m <= PANEL_MOST && s->sides <= PANEL_SIDES && are_short(s->b[0], s->n, PANEL_SYSTEM_SIZE);
    for (uint32_t i = 0; fits && i < s->n; i++)
        fits = are_short(s->a[i], s->m, PANEL_SYSTEM_SIZE);
    return fits;
}

static bool certificate_fits(const struct system *s, const struct certificate *c)
{
    if (!are_short(c->row, s->n, PANEL_CERTIFICATE_SIZE))
        return false;
    return c->kind == ABSENCE || (are_short(&c->d, 1, PANEL_CERTIFICATE_SIZE) && are_short(&c->w, 1, PANEL_CERTIFICATE_SIZE) &&
                                  are_short(c->numerator, s->m, PANEL_CERTIFICATE_SIZE));
}

struct refusal check_on_panel(const struct file *system, const struct file *certificate)
{
    static struct system s;
    static struct certificate c;
    if (!holds_words(system) || !holds_words(certificate))
        return (struct refusal){10, 0};
    struct refusal r = read_system_words(&s, system);
    if (r.number == 0)
        r = read_certificate(&c, &s, certificate);
    if (r.number != 0)
        return r;
    if (!system_fits(&s))
        return (struct refusal){41, 0};
    if (!certificate_fits(&s, &c) || certificate->count > 4 * PANEL_LONGEST_CERTIFICATE)
        return (struct refusal){41, 1};
    return verdict(&s, 0, &c);
}
