/* The functions that generated sources have, each only where it is called. `@` begins the name of one, with the names of
 * those that it calls. Times within a program are 32 bits that wrap around: those that are compared lie close together. */

/*@ length32 */
/* Returns the place of the highest bit that is set, counted from 1; 0 where none is. */
static inline uint32_t length32(uint32_t bits) {
#if defined(__GNUC__) && UINT_MAX == UINT32_MAX
    return bits == 0 ? 0 : 32 - (uint32_t)__builtin_clz(bits);
#else
    uint32_t length = 0;
    if (bits >= UINT32_C(1) << 16) { bits >>= 16; length += 16; }
    if (bits >= UINT32_C(1) << 8) { bits >>= 8; length += 8; }
    if (bits >= UINT32_C(1) << 4) { bits >>= 4; length += 4; }
    if (bits >= UINT32_C(1) << 2) { bits >>= 2; length += 2; }
    if (bits >= UINT32_C(1) << 1) { bits >>= 1; length += 1; }
    return length + bits;
#endif
}

/*@ length64 */
/* The same of 64 bits. */
static inline uint32_t length64(uint64_t bits) {
#if defined(__GNUC__) && UINT_MAX == UINT32_MAX
    return bits == 0 ? 0 : 64 - (uint32_t)__builtin_clzll(bits);
#else
    uint32_t length = 0;
    if (bits >= UINT64_C(1) << 32) { bits >>= 32; length += 32; }
    if (bits >= UINT64_C(1) << 16) { bits >>= 16; length += 16; }
    if (bits >= UINT64_C(1) << 8) { bits >>= 8; length += 8; }
    if (bits >= UINT64_C(1) << 4) { bits >>= 4; length += 4; }
    if (bits >= UINT64_C(1) << 2) { bits >>= 2; length += 2; }
    if (bits >= UINT64_C(1) << 1) { bits >>= 1; length += 1; }
    return length + (uint32_t)bits;
#endif
}

/*@ join32 */
/* The history `past` with `count` equal verdicts behind it, of which there are 1 to 32. */
static inline uint32_t join32(uint32_t past, uint32_t count, bool value) {
    return ((past << (count - 1)) << 1) | (value ? UINT32_MAX >> (32 - count) : 0);
}

/*@ join64 */
/* The history `past` with `count` equal verdicts behind it, of which there are 1 to 64. */
static inline uint64_t join64(uint64_t past, uint32_t count, bool value) {
    return ((past << (count - 1)) << 1) | (value ? UINT64_MAX >> (64 - count) : 0);
}

/*@ eventually32 length32 join32 */
/* Decides whether a formula comes to hold within `low` to `high` rows. Bit k of `right` is its verdict k rows ago, where the
 * same bit of `known` is set; `lag` times aren't decided, and `past` has the verdicts before them. At most 32 turns. */
static inline void eventually32(uint32_t right, uint32_t known, uint32_t low, uint32_t high, uint32_t *lag, uint32_t *past) {
    uint32_t left = *lag;
    const uint32_t open = ~(known & ~right);
    while (left > low) {
        const uint32_t place = length32(open & (UINT32_MAX >> (32 - (left - low))));
        uint32_t count;
        bool value = false;
        if (place + high < left) {
            count = left - high - place;
        } else if (place != 0 && ((right & known) >> (place - 1) & 1) != 0) {
            count = left - low - place + 1;
            value = true;
        } else {
            break;
        }
        *past = join32(*past, count, value);
        left -= count;
    }
    *lag = left;
}

/*@ eventually64 length64 join64 */
/* Decides whether a formula comes to hold within `low` to `high` rows. Bit k of `right` is its verdict k rows ago, where the
 * same bit of `known` is set; `lag` times aren't decided, and `past` has the verdicts before them. At most 64 turns. */
static inline void eventually64(uint64_t right, uint64_t known, uint32_t low, uint32_t high, uint32_t *lag, uint64_t *past) {
    uint32_t left = *lag;
    const uint64_t open = ~(known & ~right);
    while (left > low) {
        const uint32_t place = length64(open & (UINT64_MAX >> (64 - (left - low))));
        uint32_t count;
        bool value = false;
        if (place + high < left) {
            count = left - high - place;
        } else if (place != 0 && ((right & known) >> (place - 1) & 1) != 0) {
            count = left - low - place + 1;
            value = true;
        } else {
            break;
        }
        *past = join64(*past, count, value);
        left -= count;
    }
    *lag = left;
}

/*@ until32 length32 join32 */
/* Decides an until as eventually32 does; `first` and `first_known` are its left operand. At most 32 turns. */
static inline void until32(uint32_t first, uint32_t first_known, uint32_t right, uint32_t known, uint32_t low, uint32_t high,
                           uint32_t *lag, uint32_t *past) {
    uint32_t left = *lag;
    const uint32_t never = known & ~right;
    while (left > low) {
        const uint32_t place = length32(~(never & first & first_known) & (UINT32_MAX >> (32 - (left - low))));
        const uint32_t bit = place == 0 ? 0 : UINT32_C(1) << (place - 1);
        uint32_t count = left - low - place + 1;
        bool value = false;
        if (place + high < left) {
            count = left - high - place;
        } else if ((right & known & bit) != 0) {
            value = true;
        } else if ((never & bit) == 0) {
            break;
        } else if ((first_known & bit) == 0) {
            const uint32_t last = length32(~never & (bit - 1));
            if (last + high >= left) break;
            count = left - high - last;
        }
        *past = join32(*past, count, value);
        left -= count;
    }
    *lag = left;
}

/*@ until64 length64 join64 */
/* Decides an until as eventually64 does; `first` and `first_known` are its left operand. At most 64 turns. */
static inline void until64(uint64_t first, uint64_t first_known, uint64_t right, uint64_t known, uint32_t low, uint32_t high,
                           uint32_t *lag, uint64_t *past) {
    uint32_t left = *lag;
    const uint64_t never = known & ~right;
    while (left > low) {
        const uint32_t place = length64(~(never & first & first_known) & (UINT64_MAX >> (64 - (left - low))));
        const uint64_t bit = place == 0 ? 0 : UINT64_C(1) << (place - 1);
        uint32_t count = left - low - place + 1;
        bool value = false;
        if (place + high < left) {
            count = left - high - place;
        } else if ((right & known & bit) != 0) {
            value = true;
        } else if ((never & bit) == 0) {
            break;
        } else if ((first_known & bit) == 0) {
            const uint32_t last = length64(~never & (bit - 1));
            if (last + high >= left) break;
            count = left - high - last;
        }
        *past = join64(*past, count, value);
        left -= count;
    }
    *lag = left;
}

/*@ reach */
/* Returns how far it is from a time to a later one; 0 where the second isn't later. */
static inline uint32_t reach(uint32_t from, uint32_t to) {
    return to - from < UINT32_C(0x80000000) ? to - from : 0;
}

/*@ ring_read */
/* A ring has one bit for each time, the earliest of a word highest. Returns 64 of them, from a time on. */
static inline uint64_t ring_read(const uint64_t *ring, uint32_t mask, uint32_t time) {
    const uint32_t at = time >> 6, shift = time & 63;
    return ring[at & mask] << shift | (ring[(at + 1) & mask] >> 1) >> (63 - shift);
}

/*@ ring_put */
/* Writes the lowest `count` bits, 1 to 64, to a ring from a time on, the last of them lowest. */
static inline void ring_put(uint64_t *ring, uint32_t mask, uint32_t time, uint64_t bits, uint32_t count) {
    const uint32_t at = time >> 6, shift = time & 63;
    const uint64_t top = bits << (64 - count), full = UINT64_MAX << (64 - count);
    ring[at & mask] = (ring[at & mask] & ~(full >> shift)) | top >> shift;
    if (shift + count > 64) {
        const uint64_t rest = full << (64 - shift);
        ring[(at + 1) & mask] = (ring[(at + 1) & mask] & ~rest) | top << (64 - shift);
    }
}

/*@ ring_fill ring_put */
/* Writes `count` equal verdicts to a ring from a time on. */
static inline void ring_fill(uint64_t *ring, uint32_t mask, uint32_t time, uint32_t count, bool value) {
    while (count != 0) {
        const uint32_t room = 64 - (time & 63), some = count < room ? count : room;
        ring_put(ring, mask, time, value ? UINT64_MAX : 0, some);
        time += some;
        count -= some;
    }
}

/*@ no_bits */
/* The ring of a constant. */
static const uint64_t no_bits[1] = {0};

/*@ ring_add */
/* Writes one verdict to a ring. */
static inline void ring_add(uint64_t *ring, uint32_t mask, uint32_t time, bool value) {
    const uint32_t at = time >> 6 & mask, shift = 63 - (time & 63);
    ring[at] = (ring[at] & ~(UINT64_C(1) << shift)) | (uint64_t)value << shift;
}

/*@ queue */
/* The verdicts of a formula before the time `end`; those in the ring are denied where `flip` is all ones. */
struct queue {
    const uint64_t *ring;
    uint32_t mask, end;
    uint64_t flip;
};

/*@ queue_known queue reach */
/* Returns which of 64 times from one on a queue has: the first ones. */
static inline uint64_t queue_known(const struct queue *it, uint32_t time) {
    const uint32_t count = reach(time, it->end);
    return count == 0 ? 0 : count >= 64 ? UINT64_MAX : UINT64_MAX << (64 - count);
}

/*@ queue_read queue ring_read */
/* Returns the verdicts of 64 times from one on; those that aren't known may be anything. */
static inline uint64_t queue_read(const struct queue *it, uint32_t time) {
    return ring_read(it->ring, it->mask, time) ^ it->flip;
}

/*@ queue_false queue queue_known queue_read length64 */
/* Returns the first time from one on at which a formula isn't known to be false. */
static inline uint32_t queue_false(const struct queue *it, uint32_t time) {
    for (;;) {
        const uint32_t count = 64 - length64(~(queue_known(it, time) & ~queue_read(it, time)));
        time += count;
        if (count < 64) return time;
    }
}

/*@ and_row queue queue_known queue_read length64 ring_put */
/* Decides a conjunction from `time` on as far as it is known, writes it to a ring, and returns the first time left. */
static uint32_t and_row(struct queue left, struct queue right, uint64_t *ring, uint32_t mask, uint32_t time) {
    for (;;) {
        const uint64_t one = queue_read(&left, time), one_known = queue_known(&left, time);
        const uint64_t other = queue_read(&right, time), other_known = queue_known(&right, time);
        const uint64_t open = ~((one_known & other_known) | (one_known & ~one) | (other_known & ~other));
        const uint32_t count = 64 - length64(open);
        if (count == 0) return time;
        ring_put(ring, mask, time, (one & other) >> (64 - count), count);
        time += count;
        if (count < 64) return time;
    }
}

/*@ contract_row queue queue_known queue_read length64 */
/* Returns the first time from `time` on at which the status of a contract isn't known. */
static uint32_t contract_row(struct queue left, struct queue right, uint32_t time) {
    for (;;) {
        const uint64_t one = queue_read(&left, time), one_known = queue_known(&left, time);
        const uint32_t count = 64 - length64(~(one_known & (~one | queue_known(&right, time))));
        time += count;
        if (count < 64) return time;
    }
}

/*@ eventually_row queue queue_known queue_read queue_false reach ring_fill */
/* Decides from `time` on whether a formula comes to hold within `low` to `high` rows, as far as that is known, writes it to
 * a ring, and returns the first time left. The formula is false from time + low up to `place`. */
static uint32_t eventually_row(struct queue right, uint32_t low, uint32_t high, uint64_t *ring, uint32_t mask, uint32_t time,
                               uint32_t *place) {
    uint32_t at = *place;
    for (;;) {
        uint32_t count;
        bool value = false;
        at += reach(at, time + low);
        at = queue_false(&right, at);
        if (reach(time + high, at) != 0) {
            count = at - (time + high);
        } else if (reach(at, right.end) != 0) {
            count = at - (time + low) + 1;
            value = true;
        } else {
            *place = at;
            return time;
        }
        ring_fill(ring, mask, time, count, value);
        time += count;
    }
}

/*@ until_skip queue queue_known queue_read length64 */
/* Returns the first time from one on at which the left operand isn't known to be true or the right one not to be false. */
static inline uint32_t until_skip(const struct queue *left, const struct queue *right, uint32_t time) {
    for (;;) {
        const uint64_t goes_on = queue_known(left, time) & queue_read(left, time) & queue_known(right, time) & ~queue_read(right, time);
        const uint32_t count = 64 - length64(~goes_on);
        time += count;
        if (count < 64) return time;
    }
}

/*@ until_row queue queue_known queue_read queue_false until_skip reach ring_fill */
/* Decides an until as eventually_row does: up to `place` the left operand is true and the right one false, and up to
 * `missed` the right one is false. */
static uint32_t until_row(struct queue left, struct queue right, uint32_t low, uint32_t high, uint64_t *ring, uint32_t mask,
                          uint32_t time, uint32_t *place, uint32_t *missed) {
    uint32_t at = *place, miss = *missed;
    for (;;) {
        uint32_t count = 0;
        bool value = false;
        at += reach(at, time + low);
        at = until_skip(&left, &right, at);
        if (reach(time + high, at) != 0) {
            count = at - (time + high);
        } else if (reach(at, right.end) != 0) {
            const bool hit = queue_read(&right, at) >> 63 != 0;
            if (hit || reach(at, left.end) != 0) {
                count = at - (time + low) + 1;
                value = hit;
            } else {
                miss += reach(miss, at);
                miss = queue_false(&right, miss);
                count = reach(time + high, miss);
            }
        }
        if (count == 0) {
            *place = at;
            *missed = miss;
            return time;
        }
        ring_fill(ring, mask, time, count, value);
        time += count;
    }
}

/*@ line_bit */
/* Returns the verdict of a time that a ring has. */
static inline bool line_bit(const uint64_t *ring, uint32_t mask, uint32_t time) {
    return (ring[time >> 6 & mask] >> (63 - (time & 63)) & 1) != 0;
}

/*@ box reach */
/* A stretch of times. */
struct box {
    uint32_t first, last;
};

/*@ boxes box reach */
/* Keeps the stretches at which a since will hold while its left operand does, from `head` on `count` of them in a ring of
 * `room`, and returns whether it holds now. */
static bool boxes(struct box *kept, uint32_t room, uint32_t *head, uint32_t *count, bool left, bool right, uint32_t now,
                  uint32_t low, uint32_t high) {
    if (!left) *count = 0;
    if (*count != 0 && reach(kept[*head].last, now) != 0) {
        *head = *head + 1 == room ? 0 : *head + 1;
        *count -= 1;
    }
    if (right) {
        const uint32_t end = *head + *count, tail = end == 0 ? room - 1 : end > room ? end - room - 1 : end - 1;
        if (*count != 0 && reach(kept[tail].last + 1, now + low) == 0) {
            kept[tail].last = now + high;
        } else {
            const uint32_t next = end >= room ? end - room : end;
            kept[next].first = now + low;
            kept[next].last = now + high;
            *count += 1;
        }
    }
    return *count != 0 && reach(now, kept[*head].first) == 0;
}
