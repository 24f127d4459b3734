// Arithmetic in 128 bits that clang calls for WebAssembly, as the library of a compiler has it. Nothing here may itself be
// compiled into such a call, so it is compiled without optimisation.

typedef unsigned long half;
typedef unsigned __int128 whole;
typedef union {
    whole all;
    struct {
        half low, high;
    } parts;
} wide;

// The upper half of a product of two halves.
static half upper_product(half a, half b)
{
    half a_low = a & 0xffffffff, a_high = a >> 32, b_low = b & 0xffffffff, b_high = b >> 32;
    half low = a_low * b_low, one = a_low * b_high, other = a_high * b_low;
    half carried = (low >> 32) + (one & 0xffffffff) + (other & 0xffffffff);
    return a_high * b_high + (one >> 32) + (other >> 32) + (carried >> 32);
}

whole __multi3(whole a, whole b)
{
    wide x, y, product;
    x.all = a;
    y.all = b;
    product.parts.low = x.parts.low * y.parts.low;
    product.parts.high = upper_product(x.parts.low, y.parts.low) + x.parts.high * y.parts.low + x.parts.low * y.parts.high;
    return product.all;
}

whole __ashlti3(whole a, int by)
{
    wide x, shifted;
    if (by == 0)
        return a;
    x.all = a;
    shifted.parts.low = by >= 64 ? 0 : x.parts.low << by;
    shifted.parts.high = by >= 64 ? x.parts.low << (by - 64) : x.parts.high << by | x.parts.low >> (64 - by);
    return shifted.all;
}

whole __lshrti3(whole a, int by)
{
    wide x, shifted;
    if (by == 0)
        return a;
    x.all = a;
    shifted.parts.high = by >= 64 ? 0 : x.parts.high >> by;
    shifted.parts.low = by >= 64 ? x.parts.high >> (by - 64) : x.parts.low >> by | x.parts.high << (64 - by);
    return shifted.all;
}

// Digit by digit in base two, the highest first.
whole __udivti3(whole dividend, whole divisor)
{
    wide n, d, quotient;
    half high = 0, low = 0;
    n.all = dividend;
    d.all = divisor;
    quotient.parts.low = quotient.parts.high = 0;
    for (int at = 127; at >= 0; at--) {
        half digit = (at >= 64 ? n.parts.high >> (at - 64) : n.parts.low >> at) & 1;
        half carried = high >> 63;
        high = high << 1 | low >> 63;
        low = low << 1 | digit;
        if (carried || high > d.parts.high || (high == d.parts.high && low >= d.parts.low)) {
            high -= d.parts.high + (low < d.parts.low);
            low -= d.parts.low;
            if (at >= 64)
                quotient.parts.high |= 1ul << (at - 64);
            else
                quotient.parts.low |= 1ul << at;
        }
    }
    return quotient.all;
}
