//! The values at which something may change.

/// Within bounds: the powers of two and their neighbours, of both signs, and the bounds and theirs.
pub fn edges(least: i128, most: i128) -> Vec<i128> {
    let mut values = vec![least, least + 1, most - 1, most];
    for power in (0..64).map(|n| 1i128 << n) {
        for value in [power - 1, power, power + 1] {
            values.push(value);
            values.push(-value);
        }
    }
    values.retain(|value| (least..=most).contains(value));
    values.sort_unstable();
    values.dedup();
    values
}

/// Ids whose fields are at their edges, and ids with one bit, all but one, or all below one.
pub fn raw_ids() -> Vec<u64> {
    let mut raws = vec![];
    for n in 0..64 {
        raws.extend([1 << n, !(1 << n), (1 << n) - 1, !((1 << n) - 1)]);
    }
    let bytes = [0u64, 1, 0x7F, 0x80, 0xFE, 0xFF];
    for leaf in [0u64, 1] {
        for types in bytes {
            for mask in bytes {
                for generation in [0u64, 1, 0x3FFF, 0x4000, 0x7FFD, 0x7FFE, 0x7FFF] {
                    for index in [
                        0u64,
                        1,
                        2,
                        9,
                        10,
                        0x7FFF_FFFF,
                        0x8000_0000,
                        0xFFFF_FFFE,
                        0xFFFF_FFFF,
                    ] {
                        raws.push(leaf << 63 | types << 55 | mask << 47 | generation << 32 | index);
                    }
                }
            }
        }
    }
    raws
}

/// Calls `each` on every way to take one value of each list.
pub fn product(lists: &[Vec<i128>], each: &mut dyn FnMut(&[i128])) {
    fn go(lists: &[Vec<i128>], taken: &mut Vec<i128>, each: &mut dyn FnMut(&[i128])) {
        match lists.split_first() {
            None => each(taken),
            Some((list, rest)) => {
                for value in list {
                    taken.push(*value);
                    go(rest, taken, each);
                    taken.pop();
                }
            }
        }
    }
    go(lists, &mut vec![], each);
}
