/* Comparisons, with and without the conditional moves of a processor. */

double smaller(double x, double y)
{
    return x < y ? x : y;
}

double larger(float x, double y)
{
    return x >= y ? x : y;
}

float clamped(float x, float low, float high)
{
    if (x < low)
        return low;
    return x > high ? high : x;
}

/* An integer comparison stands between the moves of two conditions. */
double chosen(unsigned n, double x, double y)
{
    double smaller = x < y ? x : y;
    return (n < 3 ? x : y) * smaller;
}

double picked(int n, double x, double y)
{
    return (n < 3 ? x : y) * (x < y ? x : y);
}

int order(double x, double y)
{
    if (__builtin_isunordered(x, y))
        return 2;
    return x == y ? 0 : x < y ? -1 : 1;
}

/* How many of four numbers are below a limit. */
int below(const float *numbers, float limit)
{
    int count = 0;
    for (int i = 0; i < 4; i++)
        if (numbers[i] < limit)
            count++;
    return count;
}

double sign(double x)
{
    if (x == 0.0)
        return 0.0;
    return x < 0.0 ? -1.0 : 1.0;
}
