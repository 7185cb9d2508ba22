//! Random studies on the engine and on the original: after every call, block and stores are equal. What is refused is
//! refused as the papers have it; no pole that cannot be stepped comes to a step of the original.
//!
//! CICHOWIEJ_STUDIES sets their number, and CICHOWIEJ_SEED plays the one study of a seed that a failure
//! has named.

#[cfg(not(original))]
#[test]
#[ignore = "skipped: the original's source is not there (PHYZ_EM_SRC names its folder)"]
fn studies() {}

#[cfg(original)]
mod original {
    use compare::studies::{Tally, play, play_all};
    use compare::variable;

    const STUDIES: u64 = 20_000;

    #[test]
    fn studies() {
        if let Some(seed) = variable("CICHOWIEJ_SEED") {
            let mut tally = Tally::default();
            play(seed, &mut tally);
            return tally.report();
        }
        let studies = variable("CICHOWIEJ_STUDIES").unwrap_or(STUDIES);
        let tally = play_all(studies);
        tally.report();
        assert!(tally.is_varied() || studies < STUDIES);
    }
}
