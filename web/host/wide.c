// The products, quotients and shifts of 128-bit numbers that a compiler for WebAssembly calls by these names.
typedef unsigned __int128 u128;
typedef __int128 i128;
typedef unsigned long u64;
typedef long i64;
typedef union { u128 all; struct { u64 low, high; } half; } wide;

u128 __multi3(u128 a, u128 b) {
  wide x = { .all = a }, y = { .all = b }, product;
  u64 mask = 0xffffffff, x0 = x.half.low & mask, x1 = x.half.low >> 32, y0 = y.half.low & mask, y1 = y.half.low >> 32;
  u64 low = x0 * y0, cross = x0 * y1, other = x1 * y0;
  u64 middle = (low >> 32) + (cross & mask) + (other & mask);
  product.half.low = (low & mask) | middle << 32;
  product.half.high = x1 * y1 + (cross >> 32) + (other >> 32) + (middle >> 32) + x.half.high * y.half.low
      + x.half.low * y.half.high;
  return product.all;
}

static u128 divided(u128 a, u128 b, u128 *rest) {
  u128 quotient = 0;
  *rest = 0;
  for (int bit = 127; bit >= 0; bit--) {
    int carry = *rest >> 127;
    *rest = *rest << 1 | (a >> bit & 1);
    quotient <<= 1;
    if (carry || *rest >= b) {
      *rest -= b;
      quotient |= 1;
    }
  }
  return quotient;
}

u128 __udivti3(u128 a, u128 b) {
  u128 rest;
  return divided(a, b, &rest);
}

u128 __umodti3(u128 a, u128 b) {
  u128 rest;
  divided(a, b, &rest);
  return rest;
}

u128 __ashlti3(u128 a, int by) {
  wide x = { .all = a };
  if (by >= 64) x.half.high = x.half.low << (by - 64), x.half.low = 0;
  else if (by) x.half.high = x.half.high << by | x.half.low >> (64 - by), x.half.low <<= by;
  return x.all;
}

u128 __lshrti3(u128 a, int by) {
  wide x = { .all = a };
  if (by >= 64) x.half.low = x.half.high >> (by - 64), x.half.high = 0;
  else if (by) x.half.low = x.half.low >> by | x.half.high << (64 - by), x.half.high >>= by;
  return x.all;
}

i128 __ashrti3(i128 a, int by) {
  wide x = { .all = (u128)a };
  i64 high = x.half.high;
  if (by >= 64) x.half.low = high >> (by - 64), x.half.high = high >> 63;
  else if (by) x.half.low = x.half.low >> by | (u64)high << (64 - by), x.half.high = high >> by;
  return x.all;
}
