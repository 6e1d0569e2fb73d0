// Ranges of bytes in ascending order that do not overlap, by their starts and their ends.
/** Returns the index of the first range that ends after a byte, or the number of ranges. */
export function first_after(ends, byte) {
    let low = 0, high = ends.length;
    while (low < high) {
        const middle = (low + high) >> 1;
        if (ends[middle] > byte) high = middle; else low = middle + 1;
    }
    return low;
}

/** Returns the indices of ranges between bytes: those of a least size, and the first of smaller ones close together. */
export function* visible_ranges(starts, ends, from, to, least) {
    for (let i = first_after(ends, from); starts[i] < to;) {
        yield i;
        i = Math.max(i + 1, ends[i] - starts[i] < least ? first_after(ends, starts[i] + least) : 0);
    }
}
