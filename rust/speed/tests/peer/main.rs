//! The C peer against the engine: the same answers and the same memory for
//! every input, so that the speed table compares like with like. The cases are
//! those of `compare`, where the model stands in the peer's place; the groups
//! and what leaves are made here.
//!
//! The seed is fixed unless CETSKOBI_SEED gives another, and a failure prints it.

mod events;
mod group;
mod leaving;
mod null;
mod packets;

/// Each of these answers came so often.
fn often(what: &str, answers: &[u64], which: &[usize], least: u64) {
    for &answer in which {
        let times = answers[answer];
        println!("{times:8} times {what} answers {answer}");
        assert!(times >= least, "{what} answers {answer} {times} times");
    }
    let stray = answers.iter().enumerate();
    for (answer, &times) in stray.filter(|(answer, _)| !which.contains(answer)) {
        assert_eq!(times, 0, "{what} answers {answer}, which it cannot");
    }
}
