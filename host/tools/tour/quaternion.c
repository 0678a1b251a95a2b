/* The product of two quaternions. */

struct quaternion {
    double w, x, y, z;
};

struct quaternion product(struct quaternion a, struct quaternion b)
{
    struct quaternion c = {
        a.w * b.w - a.x * b.x - a.y * b.y - a.z * b.z,
        a.w * b.x + a.x * b.w + a.y * b.z - a.z * b.y,
        a.w * b.y - a.x * b.z + a.y * b.w + a.z * b.x,
        a.w * b.z + a.x * b.y - a.y * b.x + a.z * b.w,
    };
    return c;
}
