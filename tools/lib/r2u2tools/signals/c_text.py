"""The fixed parts of the C that signals become: helpers, by name with those that they call, and the frame around them."""

from __future__ import annotations

from r2u2tools.signals.model import Signals

NUMBER = """/* A raw number: negative or not, size * 2^exponent. */
enum { FINITE, INFINITE, NO_NUMBER };
struct number { uint64_t size; int32_t exponent; bool negative; int kind; };
"""
CALIBRATION = """/* Twice a polynomial: coefficients of `narrow` words each times the product of the divisors; sums have `size` words.
   A number of more than `limit` bits saturates, upwards if `rises` is set. */
struct calibration {
    const uint32_t *over;
    uint32_t narrow, degree, size;
    int32_t limit;
    bool rises;
    const uint32_t *divisors;
    uint32_t count;
};
"""
# In the order of the source: the text of each helper, and the helpers that it calls.
HELPERS: dict[str, tuple[str, tuple[str, ...]]] = {
    "counted": ("""static void counted(uint32_t *count)
{
    if (*count != UINT32_MAX) ++*count;
}
""", ()),
    "fit": ("""static int32_t fit(int64_t value, bool *limited)
{
    if (value >= INT32_MIN && value <= INT32_MAX) return (int32_t)value;
    *limited = true;
    return value < 0 ? INT32_MIN : INT32_MAX;
}
""", ()),
    "fit_unsigned": ("""static int32_t fit_unsigned(uint64_t value, bool *limited)
{
    if (value <= INT32_MAX) return (int32_t)value;
    *limited = true;
    return INT32_MAX;
}
""", ()),
    "absolute": ("""static int64_t absolute(int64_t value)
{
    return value < 0 ? -value : value;
}
""", ()),
    "circled": ("""/* The value on a circle, from minus a half to a half, the upper end not included. */
static int64_t circled(int64_t value, int64_t full)
{
    int64_t rest = value % full;
    if (rest < 0) rest += full;
    return 2 * rest >= full ? rest - full : rest;
}
""", ()),
    "rounded": ("""/* The nearest integer to a quotient; of two, the even one. */
static int64_t rounded(int64_t over, int64_t under)
{
    int64_t whole = over / under, rest = over % under;
    if (rest < 0) {
        rest += under;
        whole--;
    }
    return whole + (2 * rest > under || (2 * rest == under && whole % 2 != 0) ? 1 : 0);
}
""", ()),
    "summed": ("""/* Puts a value into a ring in place of the oldest one, and keeps the sum. */
static void summed(int32_t *ring, uint32_t *at, uint32_t size, int64_t *total, int32_t value)
{
    *total += (int64_t)value - ring[*at];
    ring[*at] = value;
    *at = *at + 1 < size ? *at + 1 : 0;
}
""", ()),
    "count": ("""/* Puts a bit into a ring in place of the oldest one, and returns how many are 1. */
static int32_t count(uint32_t *ring, uint32_t *at, uint32_t size, uint32_t *total, bool value)
{
    const uint32_t bit = (uint32_t)1 << (*at % 32);
    uint32_t *word = &ring[*at / 32];
    if ((*word & bit) != 0) --*total;
    if (value) ++*total;
    *word = value ? *word | bit : *word & ~bit;
    *at = *at + 1 < size ? *at + 1 : 0;
    return (int32_t)*total;
}
""", ()),
    "extreme": ("""/* Puts a value into a tree over the last `size` values, and returns the greatest or least. A node holds the greatest of
   its children, by numbers of which 0 stands for no value. */
static int32_t extreme(uint32_t *tree, uint32_t *at, uint32_t size, int32_t value, bool greatest)
{
    uint32_t key = (uint32_t)value ^ 0x80000000u, node = size + *at;
    tree[node] = greatest ? key : ~key;
    for (node /= 2; node != 0; node /= 2)
        tree[node] = tree[2 * node] > tree[2 * node + 1] ? tree[2 * node] : tree[2 * node + 1];
    *at = *at + 1 < size ? *at + 1 : 0;
    key = (greatest ? tree[1] : ~tree[1]) ^ 0x80000000u;
    return key < 0x80000000u ? (int32_t)key : -(int32_t)~key - 1;
}
""", ()),
    "bits_of_float": ("""static uint32_t bits_of_float(float value)
{
    union { float value; uint32_t bits; } both;
    both.value = value;
    return both.bits;
}
""", ()),
    "bits_of_double": ("""static uint64_t bits_of_double(double value)
{
    union { double value; uint64_t bits; } both;
    both.value = value;
    return both.bits;
}
""", ()),
    "place_of_float": ("""/* The place of a number in the order of all. */
static int64_t place_of_float(float value)
{
    const uint32_t bits = bits_of_float(value);
    const int64_t rest = (int64_t)(bits & 0x7fffffffu);
    return bits >> 31 != 0 ? -rest : rest;
}
""", ("bits_of_float",)),
    "place_of_double": ("""/* The place of a number in the order of all. */
static int64_t place_of_double(double value)
{
    const uint64_t bits = bits_of_double(value);
    const int64_t rest = (int64_t)(bits & UINT64_C(0x7fffffffffffffff));
    return bits >> 63 != 0 ? -rest : rest;
}
""", ("bits_of_double",)),
    "of_float": ("""static struct number of_float(float value)
{
    const uint32_t bits = bits_of_float(value);
    const int32_t exponent = (int32_t)(bits >> 23 & 0xffu);
    struct number made = {bits & 0x7fffffu, exponent - 150, bits >> 31 != 0, FINITE};
    if (exponent == 0xff) made.kind = made.size != 0 ? NO_NUMBER : INFINITE;
    else if (exponent == 0) made.exponent = -149;
    else made.size |= 0x800000u;
    return made;
}
""", ("bits_of_float",)),
    "of_double": ("""static struct number of_double(double value)
{
    const uint64_t bits = bits_of_double(value);
    const int32_t exponent = (int32_t)(bits >> 52 & 0x7ffu);
    struct number made = {bits & UINT64_C(0xfffffffffffff), exponent - 1075, bits >> 63 != 0, FINITE};
    if (exponent == 0x7ff) made.kind = made.size != 0 ? NO_NUMBER : INFINITE;
    else if (exponent == 0) made.exponent = -1074;
    else made.size |= UINT64_C(0x10000000000000);
    return made;
}
""", ("bits_of_double",)),
    "of_signed": ("""static struct number of_signed(int64_t value)
{
    struct number made = {(uint64_t)value, 0, value < 0, FINITE};
    if (value < 0) made.size = 0 - made.size;
    return made;
}
""", ()),
    "of_unsigned": ("""static struct number of_unsigned(uint64_t value)
{
    struct number made = {value, 0, false, FINITE};
    return made;
}
""", ()),
    "load": ("""/* Copies a number of `narrow` words into `size` words. */
static void load(uint32_t *words, uint32_t size, const uint32_t *from, uint32_t narrow)
{
    const uint32_t sign = from[narrow - 1] >> 31 != 0 ? UINT32_MAX : 0;
    for (uint32_t k = 0; k < size; k++) words[k] = k < narrow ? from[k] : sign;
}
""", ()),
    "add": ("""static void add(uint32_t *words, uint32_t size, const uint32_t *other)
{
    uint64_t carry = 0;
    for (uint32_t k = 0; k < size; k++) {
        carry += (uint64_t)words[k] + other[k];
        words[k] = (uint32_t)carry;
        carry >>= 32;
    }
}
""", ()),
    "negate": ("""/* Negates a number, or with `less` the number below it. */
static void negate(uint32_t *words, uint32_t size, bool less)
{
    uint64_t carry = less ? 0 : 1;
    for (uint32_t k = 0; k < size; k++) {
        carry += (uint32_t)~words[k];
        words[k] = (uint32_t)carry;
        carry >>= 32;
    }
}
""", ()),
    "multiply": ("""static void multiply(uint32_t *product, uint32_t size, const uint32_t *words, uint64_t by)
{
    for (uint32_t k = 0; k < size; k++) product[k] = 0;
    for (uint32_t j = 0; j < 2 && j < size; j++) {
        const uint64_t factor = j == 0 ? by & 0xffffffffu : by >> 32;
        uint64_t carry = 0;
        for (uint32_t k = 0; k + j < size; k++) {
            carry += factor * words[k] + product[k + j];
            product[k + j] = (uint32_t)carry;
            carry >>= 32;
        }
    }
}
""", ()),
    "shift_left": ("""static void shift_left(uint32_t *words, uint32_t size, uint32_t by)
{
    const uint32_t far = by / 32, bits = by % 32;
    for (uint32_t k = size; k-- > 0;) {
        const uint64_t high = k >= far ? words[k - far] : 0, low = k > far ? words[k - far - 1] : 0;
        words[k] = (uint32_t)((high << 32 | low) >> (32 - bits));
    }
}
""", ()),
    "shift_right": ("""/* Divides by a power of two, towards minus infinity, and tells whether anything is lost. */
static bool shift_right(uint32_t *words, uint32_t size, uint32_t by)
{
    const uint32_t far = by / 32, bits = by % 32, sign = words[size - 1] >> 31 != 0 ? UINT32_MAX : 0;
    uint32_t lost = 0;
    for (uint32_t k = 0; k < size; k++) {
        if (k < far) lost |= words[k];
        else if (k == far) lost |= words[k] & (((uint32_t)1 << bits) - 1);
    }
    for (uint32_t k = 0; k < size; k++) {
        const uint64_t low = far < size - k ? words[k + far] : sign, high = far + 1 < size - k ? words[k + far + 1] : sign;
        words[k] = (uint32_t)((high << 32 | low) >> bits);
    }
    return lost != 0;
}
""", ()),
    "divide": ("""/* Divides, and tells whether there is a rest. */
static bool divide(uint32_t *words, uint32_t size, uint32_t by)
{
    uint64_t rest = 0;
    for (uint32_t k = size; k-- > 0;) {
        rest = rest << 32 | words[k];
        words[k] = (uint32_t)(rest / by);
        rest %= by;
    }
    return rest != 0;
}
""", ()),
    "nearest": ("""/* The nearest integer to half of a number over the divisors, of two the even one; `lost` tells that the number is a
   little greater than its words say. */
static int32_t nearest(const struct calibration *made, uint32_t *words, bool lost, bool *limited)
{
    const bool negative = words[made->size - 1] >> 31 != 0;
    bool large = false;
    uint64_t halves;
    int64_t value = (int64_t)1 << 32;
    if (negative) negate(words, made->size, lost);
    for (uint32_t k = 0; k < made->count; k++)
        if (divide(words, made->size, made->divisors[k])) lost = true;
    for (uint32_t k = 2; k < made->size; k++)
        if (words[k] != 0) large = true;
    halves = (uint64_t)words[1] << 32 | words[0];
    if (!large && halves >> 33 == 0) {
        value = (int64_t)(halves / 2);
        if (halves % 2 != 0 && (lost || value % 2 != 0)) value++;
    }
    return fit(negative ? -value : value, limited);
}
""", ("negate", "divide", "fit")),
    "beyond": ("""/* The end of the range to which a number leads that is too large. */
static int32_t beyond(const struct calibration *made, bool negative, bool *limited)
{
    const bool falls = negative && made->degree % 2 != 0;
    *limited = true;
    return made->rises != falls ? INT32_MAX : INT32_MIN;
}
""", ()),
    "linear": ("""static int32_t linear(const struct calibration *made, struct number number, uint32_t *sum, uint32_t *product, bool *limited)
{
    bool lost = false;
    int32_t bits = number.exponent;
    for (uint64_t rest = number.size; rest != 0; rest >>= 1) bits++;
    if (number.kind == INFINITE || (number.size != 0 && bits > made->limit)) return beyond(made, number.negative, limited);
    load(sum, made->size, made->over + made->narrow, made->narrow);
    multiply(product, made->size, sum, number.size);
    if (number.negative) negate(product, made->size, false);
    if (number.exponent > 0 && number.size != 0) shift_left(product, made->size, (uint32_t)number.exponent);
    if (number.exponent < 0) lost = shift_right(product, made->size, (uint32_t)-number.exponent);
    load(sum, made->size, made->over, made->narrow);
    add(sum, made->size, product);
    return nearest(made, sum, lost, limited);
}
""", ("beyond", "load", "multiply", "negate", "shift_left", "shift_right", "add", "nearest")),
    "polynomial": ("""static int32_t polynomial(const struct calibration *made, struct number number, uint32_t *sum, uint32_t *product, bool *limited)
{
    const uint32_t down = number.exponent < 0 ? (uint32_t)-number.exponent : 0, up = number.exponent > 0 ? (uint32_t)number.exponent : 0;
    if (number.kind == INFINITE) return beyond(made, number.negative, limited);
    load(sum, made->size, made->over + made->degree * made->narrow, made->narrow);
    for (uint32_t k = made->degree; k-- > 0;) {
        multiply(product, made->size, sum, number.size);
        if (number.negative) negate(product, made->size, false);
        if (up != 0) shift_left(product, made->size, up);
        load(sum, made->size, made->over + k * made->narrow, made->narrow);
        if (down != 0) shift_left(sum, made->size, down * (made->degree - k));
        add(sum, made->size, product);
    }
    return nearest(made, sum, down != 0 && shift_right(sum, made->size, down * made->degree), limited);
}
""", ("beyond", "load", "multiply", "negate", "shift_left", "shift_right", "add", "nearest")),
}
USE = """A struct of zeros is the state before row 0. {prefix}_signals() computes the next row.
   `missing` and `saturated` count, for each column, the rows without a value and the rows out of range."""


def c_type(kind: str) -> str:
    return kind if kind in ("bool", "float", "double") else f"{kind}_t"


def header(signals: Signals, prefix: str, state: list[str]) -> str:
    """Returns the text of the header."""
    guard, count = f"{prefix.upper()}_SIGNALS_H", len(signals.columns)
    fields = "\n".join(f"    {c_type(it.type)} {it.member};" + (f" /* {it.name.replace('*/', '* /')} */" if it.member != it.name else "") for it in signals.fields)
    columns = "\n".join(f"#define {prefix.upper()}_SIGNAL_{it.name} {k}" for k, it in enumerate(signals.columns))
    return f"""/* Signals in C, generated; nothing here is proved.
   {USE.format(prefix=prefix)} */
#ifndef {guard}
#define {guard}

#include <stdbool.h>
#include <stdint.h>

#define {prefix.upper()}_SIGNALS {count}
{columns}

struct {prefix}_raw {{
{fields}
}};

struct {prefix}_signals {{
    uint32_t missing[{count}], saturated[{count}];
    bool started;
{chr(10).join(state)}
}};

#ifdef __cplusplus
extern "C" {{
#endif
void {prefix}_signals(struct {prefix}_signals *state, const struct {prefix}_raw *raw, int32_t row[{count}]);
#ifdef __cplusplus
}}
#endif

#endif
"""


def needed(helpers: set[str]) -> list[str]:
    """Returns the helpers with those that they call, in the order of the source."""
    found, more = set(helpers), list(helpers)
    while more:
        for other in HELPERS[more.pop()][1]:
            if other not in found:
                found.add(other)
                more.append(other)
    return [name for name in HELPERS if name in found]


def source(signals: Signals, prefix: str, functions: list[str], helpers: set[str]) -> str:
    """Returns the text of the source."""
    names = needed(helpers)
    parts = [f'/* Signals in C, generated; nothing here is proved. */\n#include "{prefix}_signals.h"\n']
    for kind, size in (("float", 4), ("double", 8)):
        if any(it.type == kind for it in signals.fields):
            parts.append(f"typedef char {kind}_has_{8 * size}_bits[sizeof({kind}) == {size} ? 1 : -1];\n")
    if any(name.startswith("of_") for name in names):
        parts.append(NUMBER)
    if "nearest" in names:
        parts.append(CALIBRATION)
    parts += [HELPERS[name][0] for name in names]
    parts += [f"{it}\n" for it in functions]
    calls = "\n".join(f"    row[{k}] = column_{it.name}(state, raw);" for k, it in enumerate(signals.columns))
    parts.append(f"void {prefix}_signals(struct {prefix}_signals *state, const struct {prefix}_raw *raw, int32_t row[{len(signals.columns)}])\n{{\n{calls}\n    state->started = true;\n}}\n")
    return "\n".join(parts)
