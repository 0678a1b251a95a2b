/* The running average of a tilt in degrees, with a restart at a gap. */

struct filter {
    float average; /* of the tilt */
    float spread;  /* of the distance of a sample from the average */
};

/* Takes one sample and gives the average after it. A sample further from
   the average than the limit is a gap: the filter starts anew there, with
   the sample brought within one turn. */
float tilt_step(struct filter *f, float tilt, float limit)
{
    float gap = tilt - f->average;
    float distance = __builtin_fabsf(gap);
    f->spread += (distance - f->spread) * 0.125f;
    if (distance > limit)
        f->average = __builtin_fmodf(tilt, 360.0f);
    else
        f->average += gap * 0.125f;
    return f->average;
}
