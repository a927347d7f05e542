/* A small plugin for a press controller: a filter that drops single false peaks of the cavity pressure. */
#include <stdint.h>

struct filter {
  double last;
  double limit;
  uint32_t held;
  int16_t raw[8];
};

/* The median of the last three samples; a jump above the limit is held back for one cycle. */
double filter_step(struct filter *f, const int16_t *sample, int channel) {
  double p = (double)sample[channel] * 0.125;
  double jump = p > f->last ? p - f->last : f->last - p;
  f->raw[f->held & 7u] = sample[channel];
  if (jump > f->limit && f->held == 0) {
    f->held = 1;
    return f->last;
  }
  f->held = 0;
  f->last = p;
  return p;
}
