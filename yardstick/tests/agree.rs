//! The quick search answers what the plain one does, with and without a split.
use yardstick::kinds::{self, Random};
use yardstick::{plain, quick, table};

#[test]
fn quick_as_plain() {
    let mut random = Random(20);
    let (mut with, mut without) = (0, 0);
    for n in 6..=9 {
        for k in 2..=6 {
            for kind in [
                kinds::random,
                kinds::planted,
                kinds::near_miss,
                kinds::xor_any_flipped,
                kinds::sparse,
            ] {
                for _ in 0..12 {
                    let t = kind(n, k, &mut random);
                    let found = plain::find(&t, n, k);
                    assert_eq!(quick::find(&t, n, k), found, "n = {n}, K = {k}: {t:02x?}");
                    *if found.is_some() { &mut with } else { &mut without } += 1;
                }
            }
        }
    }
    assert!(with > 100 && without > 100, "{with} with a split, {without} without");
}

#[test]
fn set_aside_and_back() {
    // Input 3 of 8 doesn't count: the masks name the others in their own positions.
    let mut random = Random(21);
    for _ in 0..20 {
        let small = kinds::planted(7, 4, &mut random);
        let mut t = vec![0u8; table::length(8)];
        for x in 0..256u32 {
            let v = x & 7 | x >> 4 << 3;
            t[(x / 8) as usize] |= (table::bit(&small, v) as u8) << (x % 8);
        }
        let mut work = vec![0xAA; 16384];
        let quick = table::over_counting(&t, 8, 4, &mut work, quick::find);
        assert!(work.iter().all(|&byte| byte == 0));
        assert_eq!(quick, table::over_counting(&t, 8, 4, &mut work, plain::find));
        assert!(quick.map_or(true, |(own, shared)| (own | shared) & 8 == 0));
    }
}
