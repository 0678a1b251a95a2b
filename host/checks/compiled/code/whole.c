/* What -ffast-math makes of these: frndint under a changed control word,
   fsin, loops of fprem, and conditional moves. */

double floor_of(double x, double y)
{
    return __builtin_floor(x) + y;
}

float ceil_of(float x)
{
    return __builtin_ceilf(x * 0.5f);
}

double nearest(double x)
{
    return __builtin_rint(x) - x;
}

double remainder_of(double x, double y)
{
    return __builtin_fmod(x, y) + 1.0;
}

double least(double x, double y)
{
    return __builtin_fmin(x, y) + __builtin_fmax(x, 1.0);
}

int floor_int(double x)
{
    return (int)__builtin_floor(x);
}

double wave(double x, double y)
{
    return __builtin_sin(x) * y - x;
}
