/* Arithmetic, conversions, loops, spills, calls and stores. */

struct pair {
    double sum, product;
};

struct quaternion {
    float w, x, y, z;
};

static __attribute__((noinline)) double half_of(double x)
{
    return x * 0.5;
}

/* The control word is changed for the conversion. */
int to_int(double x)
{
    return (int)(x * 2.0);
}

short to_short(float x, float y)
{
    return (short)(x + y);
}

long long to_long(long double x)
{
    return (long long)(x - 0.25L);
}

/* The first n numbers; n is at most 4. */
double sum(const double *numbers, int n)
{
    double sum = 0;
    for (int i = 0; i < n; i++)
        sum += numbers[i];
    return sum;
}

/* Of integers in memory. */
float mean(const int *numbers, int n)
{
    float sum = 1;
    for (int i = 0; i < n; i++)
        sum += numbers[i];
    return sum / n;
}

/* By Horner's rule. */
double polynomial(double x, const double *factors)
{
    double value = factors[4];
    for (int i = 3; i >= 0; i--)
        value = value * x + factors[i];
    return value;
}

/* Four steps of Newton's method. */
double newton(double square)
{
    double root = square;
    for (int i = 0; i < 4; i++)
        root = (root + square / root) * 0.5;
    return root;
}

double distance(double x, double y)
{
    return __builtin_sqrt(x * x + y * y);
}

long double circle(long double radius)
{
    return radius * radius * 3.14159265358979323846264338327950288L;
}

int is_negative(long double x, long double y)
{
    return __builtin_signbitl(x - y) != 0;
}

double negated(double x, double y)
{
    return -__builtin_fabs(x - y) + 1.0;
}

/* More values at a time than the stack has places. */
double many(const double *v)
{
    double a = v[0] + v[1], b = v[1] - v[2], c = v[2] * v[3], d = v[3] - v[4], e = v[4] + v[5];
    double f = v[5] * v[6], g = v[6] - v[7], h = v[7] + v[0], i = v[0] * v[4], j = v[1] - v[5];
    return (a - b * (c + d * (e - f * (g + h * (i - j))))) +
           (j - i * (h + g * (f - e * (d + c * (b - a)))));
}

/* A value is kept across a call. */
double across(double x, double y)
{
    return x - half_of(y) * x;
}

double twice_across(double x, double y)
{
    double first = half_of(x + y), second = half_of(x - y);
    return first * second - x / y;
}

double tail(double x)
{
    return half_of(x + 3.0);
}

long double mixed(float a, double b, long double c, int d, long long e)
{
    return (a + b) * c - d / (a - e);
}

/* Stores through a pointer that moves. */
void scaled(float *numbers, float factor, int n)
{
    for (int i = 0; i < n; i++)
        numbers[i] = numbers[i] * factor - i;
}

void stored(double x, float *f, double *d, long double *l, int *i)
{
    *f = x / 3.0;
    *d = x - *f;
    *l = x * *d;
    *i = *l + 0.5L;
}

struct pair both(double x, double y)
{
    struct pair both = {x + y, x * y};
    return both;
}

struct quaternion product(const struct quaternion *a, const struct quaternion *b)
{
    struct quaternion product = {
        a->w * b->w - a->x * b->x - a->y * b->y - a->z * b->z,
        a->w * b->x + a->x * b->w + a->y * b->z - a->z * b->y,
        a->w * b->y - a->x * b->z + a->y * b->w + a->z * b->x,
        a->w * b->z + a->x * b->y - a->y * b->x + a->z * b->w,
    };
    return product;
}
