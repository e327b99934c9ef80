//! What the fresh cases cover.

use std::collections::BTreeSet;

use second::calls::TABLE;
use second::fresh;
use second::random::Random;

/// The faults among the words that a case is counted under.
fn faults(tags: &[String]) -> BTreeSet<&str> {
    tags.iter().filter_map(|tag| tag.strip_prefix("fault: ")).collect()
}

#[test]
fn any_two_faults_of_a_call_meet_in_some_case() {
    let mut random = Random::new(31);
    let pairs = fresh::pairs(&mut random);
    for call in TABLE {
        let own = pairs.iter().filter(|fresh| fresh.case.call.code == call.code);
        let cases: Vec<BTreeSet<&str>> = own.map(|fresh| faults(&fresh.tags)).collect();
        // What chance draws, the plan must have too.
        let drawn: Vec<Vec<String>> = (0..100).map(|_| (call.fresh)(&mut random).tags).collect();
        let all: BTreeSet<&str> = drawn.iter().flat_map(|tags| faults(tags)).collect();
        // A call that takes any bytes there are has no faults.
        if call.gives.len() > 2 {
            assert!(all.len() > 4, "{}: {all:?}", call.name);
        }
        for one in &all {
            for two in all.iter().filter(|two| *two != one) {
                let met = cases.iter().any(|case| case.contains(one) && case.contains(two));
                assert!(met, "{}: {one} and {two}", call.name);
            }
        }
    }
}
